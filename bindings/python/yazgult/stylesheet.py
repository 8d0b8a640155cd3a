"""The colours of reports as HTML."""

# The default styles, for a light page and for a dark one: a rule for each class that `render_html` names.
HTML_STYLESHEET = """.snippet-error { color: #b3001b; font-weight: bold; }
.snippet-warning { color: #7a5b00; font-weight: bold; }
.snippet-info { color: #0a4bb5; font-weight: bold; }
.snippet-note { color: #0b6b1f; font-weight: bold; }
.snippet-help { color: #00677a; font-weight: bold; }
.snippet-line-number { color: #0a4bb5; font-weight: bold; }
.snippet-emphasis { font-weight: bold; }
.snippet-context { color: #0a4bb5; font-weight: bold; }
.snippet-addition { color: #0b6b1f; }
.snippet-removal { color: #b3001b; }
@media (prefers-color-scheme: dark) {
  .snippet-error { color: #ff7b72; }
  .snippet-warning { color: #e3b341; }
  .snippet-info { color: #79b8ff; }
  .snippet-note { color: #7ee787; }
  .snippet-help { color: #76e3ea; }
  .snippet-line-number { color: #79b8ff; }
  .snippet-context { color: #79b8ff; }
  .snippet-addition { color: #7ee787; }
  .snippet-removal { color: #ff7b72; }
}
"""

# What a page of articles has beside them: the words of `render_html_page` stand beside the drawing for who listens, and aren't seen.
HTML_PAGE_STYLESHEET = """.snippet-text {
  position: absolute;
  width: 1px;
  height: 1px;
  margin: 0;
  overflow: hidden;
  clip-path: inset(50%);
}
"""
