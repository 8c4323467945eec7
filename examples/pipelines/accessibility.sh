#!/bin/sh
# Checks the pages of silvervole.toml, and fails on failures that the folder baseline hasn't.
set -u
rm -rf audit findings
mkdir findings
set -- --html findings/index.html --junit findings/junit.xml --sarif findings/findings.sarif --gitlab findings/gitlab.json \
  --github findings/annotations.txt --markdown findings/comment.md --json audit/findings
[ ! -f accepted.toml ] || set -- "$@" --accepted accepted.toml

# 1 says that something failed; what of it is new is asked below. A greater status ends here, as of a page that doesn't load.
status=0
silvervole check --out audit "$@" > findings/all.txt || status=$?
if [ "$status" -gt 1 ]; then
  cat findings/all.txt
  exit "$status"
fi
if [ ! -d baseline ]; then
  cat findings/all.txt
  echo "there is no baseline yet: this audit is the first"
  exit 0
fi
# What was found before keeps its fingerprint.
[ ! -f baseline/findings ] || set -- "$@" --earlier baseline/findings
silvervole compare baseline audit "$@"
