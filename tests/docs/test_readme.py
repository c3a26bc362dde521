"""The judge of the documentation sees a page that shows something else than is printed."""

import re
import unittest

from tests.docs import readme

TEXT = """Before

    $ first < sheet
    one
    two

Between

    no command

    $ second
    $ third
    three

```rust
fn may() {
}
```

```js
one();
two();
```

It prints:

    1
    2

After
"""
CALLER = "use a;\n\nfn may() {\n}\n"
PRINTED = {"first < sheet": "one\ntwo\n", "second": "", "third": "three\n"}


class Commands(unittest.TestCase):
    def test_each_with_its_lines(self):
        self.assertEqual(readme.commands(TEXT), list(PRINTED.items()))

    def test_all_right(self):
        self.assertEqual(readme.judge(TEXT, PRINTED.get), [])

    def test_another_text_printed(self):
        for command in PRINTED:
            with self.subTest(command=command):
                wrong = readme.judge(TEXT, lambda asked: PRINTED[asked] + ("x" if asked == command else ""))
                self.assertEqual(wrong, [f"another text is printed: {command}"])

    def test_no_command(self):
        self.assertIn("no command is shown", readme.judge(TEXT.replace("    $", "    "), PRINTED.get))

    def test_other_lines_of_rattle(self):
        self.assertEqual(readme.judge_rattle(TEXT, CALLER), [])
        for text in (TEXT.replace("may", "must"), TEXT.replace("```rust", "```c")):
            self.assertEqual(readme.judge_rattle(text, CALLER), ["the lines of Rattle are not those of the crate caller"])


    def test_other_lines_of_javascript(self):
        self.assertEqual(readme.judge_javascript(TEXT, {"one();\ntwo();\n": "1\n2\n"}.get), [])
        self.assertEqual(readme.judge_javascript(TEXT, lambda program: "1\n2\n3\n"), ["the lines of JavaScript print something else"])
        self.assertEqual(readme.judge_javascript(TEXT.replace("```js", "```c"), lambda program: "1\n2\n"),
                         ["the lines of JavaScript print something else"])


class Stored(unittest.TestCase):
    """What needs no built program."""

    def test_lines_of_rattle(self):
        text, caller = (path.read_text(encoding="utf-8") for path in (readme.API, readme.CALLER))
        self.assertEqual(readme.judge_rattle(text, caller), [])

    def test_each_paper_shows_commands(self):
        for document in readme.DOCUMENTS:
            self.assertTrue(readme.commands(document.read_text(encoding="utf-8")), document.name)

    def test_links(self):
        """Every file that a link of these documents names exists."""
        for document in (*readme.DOCUMENTS, readme.API, readme.ROOT / "docs" / "proofs.md"):
            for name in re.findall(r"\]\(([^)#:]+)\)", document.read_text(encoding="utf-8")):
                self.assertTrue((document.parent / name).exists(), f"{document.name}: {name}")


if __name__ == "__main__":
    unittest.main()
