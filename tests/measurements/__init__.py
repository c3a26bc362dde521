"""What is measured at a site: four-pin readings and the staged test."""
