"""The core in one page of a browser: what makes the module and the page, and the page's own parts."""
