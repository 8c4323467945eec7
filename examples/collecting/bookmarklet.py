"""Prints a bookmarklet that saves the snapshot of the page that is open: python3 examples/collecting/bookmarklet.py

Run it at the top of the repository.
"""
import pathlib
import urllib.parse

source = pathlib.Path("silvervole/collect/snapshot.js").read_text(encoding="utf-8")
save = """(function (text) {
  const link = document.createElement('a');
  link.href = URL.createObjectURL(new Blob([text], { type: 'application/json' }));
  link.download = 'page.json';
  link.click();
})"""
code = "try { " + save + "((" + source + ")(null, { shadow: true })); } catch (error) { alert(error.message); } void 0"
print("javascript:" + urllib.parse.quote(code, safe=""))
