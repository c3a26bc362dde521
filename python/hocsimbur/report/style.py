"""The style of a report: for a screen, for a narrow one, and for A4."""

CSS = """:root{--ink:#0b0c0c;--grey:#505a5f;--rule:#b1b4b6;--hair:#dcdfe1;--fill:#7f8c96;--red:#942514;--green:#00613a;--amber:#6b4700}
*{box-sizing:border-box}
html{font-size:16px;-webkit-text-size-adjust:100%}
body{margin:0;background:#fff;color:var(--ink);font-family:-apple-system,BlinkMacSystemFont,"Segoe UI",Roboto,"Helvetica Neue",Arial,"Liberation Sans","DejaVu Sans",sans-serif;line-height:1.35;font-variant-numeric:tabular-nums lining-nums}
main{max-width:60rem;margin:0 auto;padding:0 1.25rem}
h1,h2,h3,p,dl,dd,figure,ul{margin:0}
h1{font-size:2.1rem;line-height:1.1;letter-spacing:-.01em}
h2{font-size:1.9rem;line-height:1.1;letter-spacing:-.01em}
h3{display:inline;font-size:1rem;line-height:1.25}
code{font-family:ui-monospace,Menlo,Consolas,"Liberation Mono","DejaVu Sans Mono",monospace;font-size:.92em}
a{color:inherit;text-decoration-thickness:1px;text-underline-offset:.15em}
a:focus-visible{outline:3px solid #ffdd00;outline-offset:0;background:#ffdd00}
.vh{position:absolute;width:1px;height:1px;overflow:hidden;clip-path:inset(50%);white-space:nowrap}
.sub{color:var(--grey);font-weight:400}
.red{color:var(--red)}.green{color:var(--green)}
.no{font-weight:700}
.page{padding:2.5rem 0 1.5rem}
.station{border-top:.35rem solid var(--ink)}
.head{display:flex;align-items:baseline;justify-content:space-between;gap:1rem 2rem;flex-wrap:wrap}
.station .head{align-items:center}
h2,.nm,.meta dd{overflow-wrap:anywhere}
.station .head h2{flex:1;min-width:0}
h2 .no{display:inline-block;margin-right:.35rem}

/* marks and badges: a shape and a word, colour third */
.mark{width:.95em;height:.95em;vertical-align:-.1em;flex:none}
.mark.safe{fill:var(--green)}.mark.unsafe,.mark.held{fill:var(--red)}.mark.undecided{fill:var(--amber)}.mark.none,.mark.caution{fill:var(--ink)}.mark.released{fill:var(--green)}
.mark .box{fill:none;stroke:var(--ink);stroke-width:12;stroke-dasharray:22 14}
.mark .inner{fill:none;stroke:#fff;stroke-width:20}.mark .dash{fill:#fff}.mark .line{fill:none;stroke:var(--ink);stroke-width:14}
.badge{display:inline-flex;align-items:center;gap:.4em;font-weight:700;letter-spacing:.03em;font-size:.84rem;line-height:1;white-space:nowrap}
.badge .mark{width:1.25em;height:1.25em}
.badge.held{color:var(--red)}.badge.released{color:var(--green)}
.station .head .badge{font-size:1.3rem;border:.16rem solid;padding:.34em .6em;margin-right:.1rem}
.station .head .badge.released{border-radius:2em}

/* page 1 */
.meta{display:flex;gap:.2rem 1.6rem;flex-wrap:wrap;font-size:.84rem}
.meta dt{color:var(--grey);font-size:.75rem}
.totals{font-size:1.08rem;margin:1rem 0 1.2rem;padding-top:.8rem;border-top:.16rem solid var(--ink)}
table{border-collapse:collapse;width:100%;font-size:.84rem}
th{text-align:left;font-weight:700;vertical-align:top}
td{vertical-align:top}
.num{text-align:right}
.pf{table-layout:fixed}
.pf .c1{width:19.5%}.pf .c2{width:13%}.pf .cs{width:4.2%}.pf .c3{width:26.2%}.pf .c4{width:13%}.pf .c5{width:11.5%}
.pf thead th{font-size:.75rem;color:var(--grey);font-weight:700;line-height:1.2;padding:0 .4rem .25rem 0;vertical-align:bottom}
.pf thead .sh{padding-bottom:.1rem;text-align:center}
.pf th.s,.pf td.s{text-align:center;padding-left:0;padding-right:0}
.pf thead th.num{padding-right:0;padding-left:.6rem}
.pf thead tr:last-child th{border-bottom:0}
.pf .grp th{padding:.75rem 0 .25rem;font-size:.84rem;border-bottom:.1rem solid var(--ink)}
.pf .st+.st .main>*{border-top:1px solid var(--rule)}
.pf .main>*{padding:.5rem .4rem .1rem 0}
.pf .main>.s{padding-right:0}
.pf .main>.num{padding-right:0;padding-left:.4rem;line-height:1.25}
.pf tbody th[scope=row]{font-weight:400;font-size:.95rem;line-height:1.2}
.pf tbody th a{text-decoration:none}.pf tbody th a .nm,.pf tbody th a .no:has(+.nm:empty){text-decoration:underline;text-decoration-thickness:1px;text-underline-offset:.15em}
.pf tbody th[scope=row]{padding-left:2.4em;text-indent:-2.4em}
.pf tbody th .no{display:inline-block;min-width:2.1em;text-indent:0}
.pf .why td{padding:.1rem 0 .5rem;line-height:1.3}
.pf .rel .main>*{padding-bottom:.5rem}
.pf .s .mark{width:1rem;height:1rem;vertical-align:-.15em}
.pf .sn{display:none}
.pf .words{display:block;line-height:1.2;margin-top:.1rem}
.pf .near{padding-right:.9rem}
.pf .above .words b,.pf .small b,.pf .small .sub,.pf .short b{color:var(--red)}
.pf .overlaps .words b{color:var(--amber)}
.pf .num .sub{font-size:.75rem}
.key{font-size:.78rem;color:var(--grey);margin-top:1rem;padding-top:.6rem;border-top:.1rem solid var(--ink);line-height:1.4}
.key p+p{margin-top:.35rem}
.key span{margin-right:1.1rem;white-space:nowrap;color:var(--ink)}

/* bars */
.bar{display:block;width:100%;height:1.05rem}
.bar .fill{fill:var(--fill)}.bar .over{fill:var(--red)}.bar .limit{fill:var(--ink)}.bar .base{fill:var(--grey)}.bar .tick{fill:#fff}
.bar .cut{fill:none;stroke:#fff;stroke-width:1.2;vector-effect:non-scaling-stroke}
.axis{display:block;position:relative;height:1.1em;font-size:.72rem;font-weight:400;color:var(--grey)}
.axis span{position:absolute;bottom:0;transform:translateX(-50%);white-space:nowrap;line-height:1}
.axis span:first-child{transform:none}
.axis span:last-child{color:var(--ink);font-weight:700}

/* a station */
.decision{font-size:1.2rem;line-height:1.3;margin-top:.9rem;padding-left:.8rem;border-left:.35rem solid;text-wrap:pretty}
.decision.hold{border-color:var(--red)}.decision.rel{border-color:var(--green)}
.asides{list-style:none;padding:0;margin:.6rem 0 0;font-size:.9rem;line-height:1.4}
.asides .caution .mark{margin-right:.3em}
.next ul{margin:.1rem 0 0;padding-left:1.3em;list-style:disc}
.sign{display:flex;align-items:flex-end;gap:1rem;margin:2.2rem 0 .6rem}.sign .line{flex:0 0 16rem;border-bottom:1px solid var(--ink)}
.sheets{margin:.3rem 0;padding-left:2em}
.two{display:grid;gap:0 2rem;align-items:start}
.two.top{grid-template-columns:minmax(0,1.75fr) minmax(0,1fr);margin-top:1.2rem}
.two.low{grid-template-columns:minmax(min-content,1.12fr) minmax(min-content,1fr);margin-top:1.1rem}
caption{text-align:left;padding-bottom:.3rem}
.bars{table-layout:fixed;font-size:.84rem}
.bars td,.bars th{padding:0;vertical-align:middle;font-weight:400;line-height:1.2}
.bars thead th{font-size:.75rem;color:var(--grey);vertical-align:bottom}
.bars th:nth-child(1){width:13%}.bars thead th:nth-child(2){width:36%}.bars thead th:nth-child(3){width:14.5%}.bars thead th:nth-child(4){width:14.5%}
.bars .bh th{font-weight:700;white-space:nowrap;vertical-align:bottom;padding-bottom:.15rem}
.bars .bh span{position:relative;z-index:1;background:#fff;padding-right:.3rem}
.bars .bh .bar{height:1.95rem}
.bars .bar{height:1.45rem}
.bars .bw{padding-left:.8rem;white-space:nowrap}
.bars .bw .mark{margin-right:.35em;width:.85em;height:.85em}
.bars .above .bw{color:var(--red);font-weight:700}.bars .overlaps .bw{color:var(--amber);font-weight:700}
.bars .noline{font-weight:700}
.plan svg{display:block;width:100%;max-width:22rem;height:auto;margin-top:.35rem}
.plan .wire{stroke:#77828a;stroke-width:8;fill:none}
.plan .rod circle{fill:var(--ink)}
.plan .dim{stroke:var(--ink);stroke-width:6;fill:none}
.plan .scale{stroke:var(--ink);stroke-width:12;fill:none}
.plan text{font-size:95px;fill:var(--ink);font-family:inherit}
figcaption{font-size:.78rem;color:var(--grey);line-height:1.35;margin-top:.2rem}
.data thead th{font-size:.75rem;color:var(--grey);border-bottom:.1rem solid var(--ink);padding:.05rem 0 .15rem .6rem}
.data tbody th,.data td{padding:.1rem 0 .1rem .6rem;border-bottom:1px solid var(--hair);font-weight:400;line-height:1.25}
.data th:first-child{padding-left:0!important}
.data .u{color:var(--grey);white-space:nowrap}
.data .num{white-space:nowrap}
.res{margin-top:1.1rem;width:auto}
.res td.num{white-space:normal}.res .e{white-space:nowrap}
.res th:first-child{width:11.5rem}.res .u{width:3.4rem}.res .num{width:11.2rem}
.n4 .res{width:100%;align-self:stretch;table-layout:fixed}.n4 .res th:first-child{width:17.5%}.n4 .res .u{width:5.5%}.n4 .res .num{width:19.25%}
.res .verd td,.res .verd th{font-weight:700}
.res .v .mark{margin-right:.35em;width:.85em;height:.85em}
.res .unsafe{color:var(--red)}.res .undecided{color:var(--amber)}
.differs th,.differs .num{font-weight:700!important}
.yard th,.yard .num{color:var(--red)}
.ne{font-weight:700;margin-right:.3em}
.inp th .mark,.inp .sub .mark{width:.85em;height:.85em;margin-right:.25em}
.mn{color:var(--grey)}
.wrk td,.wrk tbody th{vertical-align:middle}
.wrk sub{font-size:.75em;line-height:0}
.formulas{font-size:.78rem;color:var(--grey);margin-top:.4rem}
.formulas sub{line-height:0}
.foot{margin-top:1.2rem;padding-top:.4rem;border-top:1px solid var(--rule);font-size:.72rem;color:var(--grey);line-height:1.45}
.foot span{margin-right:1.2rem}
.foot .full{overflow-wrap:anywhere}
.foot .up{float:right}

@media print,screen and (min-width:54.01rem){.wrk .e{display:block;line-height:1.12}.wrk .to{position:absolute;width:1px;height:1px;overflow:hidden;clip-path:inset(50%);white-space:nowrap}}

@media screen and (max-width:54rem){
  main{padding:0 1rem}
  .page{padding:1.5rem 0 1rem}
  h1{font-size:1.75rem}h2{font-size:1.5rem}
  .meta{gap:.4rem 1.4rem}
  /* page 1 becomes a list of cards; roles keep it a table to a reader */
  .pf,.pf tbody,.pf thead{display:block}.pf colgroup,.pf thead tr+tr,.pf thead th:not(.axh){display:none}.pf thead tr,.pf thead .axh{display:block}.pf thead th{padding:0!important}
  .pf .grp tr,.pf .grp th{display:block}
  .pf .main{display:grid;grid-template-columns:repeat(4,2.9rem) 1fr;gap:.35rem .25rem}
  .pf .st{border-top:1px solid var(--rule);padding:.7rem 0 .6rem}
  .pf .grp+.st{border-top:0}
  .pf .main>*{padding:0!important;border:0!important}.pf tbody th[scope=row]{padding-left:2.4em!important}
  .pf .main th{grid-column:1/5}.pf .main .dec{grid-column:5/6;text-align:right}
  .pf .main .empty{display:none}
  .station .head{flex-wrap:nowrap}.station .head .badge{font-size:1rem;border-width:.12rem}
  .pf tbody th[scope=row]{font-size:1.05rem}
  .pf .main .s{text-align:left;display:block}
  .pf .sn{display:inline;color:var(--grey);margin-right:.3rem}
  .pf .main .near{grid-column:1/-1}
  .pf .main .fault,.pf .main .wire{text-align:left;grid-column:1/-1}
  .pf .fault br,.pf .wire br{display:none}
  .pf .fault::before{content:"Greatest fault current still safe "}
  .pf .wire::before{content:"Wire needed of own, kcmil "}
  .pf .num .sub{font-size:.84rem;margin-left:.4rem}
  .pf .why,.pf .why td{display:block}.pf .why td{padding:.35rem 0 0}
  .key span{white-space:normal;display:block}
  .two.top,.two.low{display:block}
  .asides li+li{margin-top:.35rem}
  .plan,.wrk,.two.low>div+div{margin-top:1.2rem}
  /* bars: season and words over a bar over the two voltages */
  .bars,.bars tbody,.bars thead{display:block}.bars thead th:not(.axh){display:none}.bars thead tr,.bars thead .axh{display:block;padding:0}.bars caption{display:block}
  .bars th{width:auto!important}
  .bars .bh,.bars .bh th{display:block}.bars .bh span{position:relative;z-index:1;background:#fff;padding-right:.3rem}
.bars .bh td{display:none}.bars .bh th{padding-top:.5rem;white-space:normal}
  .bars tr{display:grid;grid-template-columns:1fr auto auto;padding-bottom:.35rem}
  .bars th[scope=row]{width:auto}
  .bars tr:not(.bh)>th{grid-row:1;grid-column:1}
  .bars .bw{grid-row:1;grid-column:2/4}
  .bars .bc{grid-row:2;grid-column:1/-1}
  .bars .num{grid-row:3;color:var(--grey);font-size:.78rem}
  .bars .num[data-l=voltage]{grid-column:1;text-align:left}.bars .num[data-l=limit]{grid-column:2/4}
  .bars .num::before{content:attr(data-l) " "}.bars .num::after{content:" V"}
  .bars .bar{height:1.1rem}
  .bars .num:empty{display:none}
  /* results and working: a quantity, then its seasons under each other */
  .res,.wrk{width:100%!important}.res th,.res td,.wrk th,.wrk td{width:auto!important}
  .res,.wrk,.res tbody,.wrk tbody,.res caption,.wrk caption{display:block}.res thead,.wrk thead,.lo{display:none}
  .res tr,.wrk tr{display:grid;grid-template-columns:auto 1fr;padding:.3rem 0;border-bottom:1px solid var(--hair)}
  .res th,.res td,.wrk th,.wrk td{border:0!important;padding:0!important}
  .res th,.wrk th{font-weight:700!important}.res .u,.wrk .u{padding-left:.4rem!important}
  .res .num,.wrk .num{grid-column:1/-1;display:flex;justify-content:space-between}
  .res .num::before,.wrk .num::before{content:attr(data-l);color:var(--grey);font-weight:400}
  .inp{font-size:.78rem}
  .data thead th,.data tbody th,.data td{padding-left:.35rem}
  .inp .sw{display:none}
  .n4 .inp{font-size:.74rem}.n4 .inp td,.n4 .inp thead th{padding-left:.2rem}
  .n4 .inp .u{font-size:.9em}
  .foot span{display:inline-block}
}

/* pages of stations that are not in sight are laid out when they come into sight: a thousand open fast */
@media screen{.station{content-visibility:auto;contain-intrinsic-size:auto 1500px}}

@page{size:A4;margin:12mm 12mm 15mm;@bottom-right{content:"Page " counter(page) " of " counter(pages);font:7pt "Segoe UI",Roboto,"Helvetica Neue",Arial,"Liberation Sans",sans-serif;color:#505a5f}}
@media print{
  /* so that four seasons with what to change fit one page of A4, also where the only font is as wide as DejaVu Sans */
  html{font-size:7.5pt}
  .next ul{margin:0}.next li{font-size:.86em;line-height:1.2;margin:0!important}
  main{max-width:none;padding:0}
  .page{padding:0;min-height:268mm;display:flex;flex-direction:column}
  .station{break-before:page;border-top:0}
  .foot{margin-top:auto}
  .res{align-self:flex-start}
  .up{display:none}
  a,.pf tbody th a .nm,.pf tbody th a .no{text-decoration:none!important}
  tr,.plan,.pf .st,.decision{break-inside:avoid}
  h2,h3,caption,.grp{break-after:avoid}
  thead{display:table-header-group}
  *{-webkit-print-color-adjust:exact;print-color-adjust:exact}
}
"""
