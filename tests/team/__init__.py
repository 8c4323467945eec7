"""The tests of what stands around the desk: proxies, many desks, the page to judge on."""
