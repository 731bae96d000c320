#!/bin/bash
# Prints how many words each page has, with its examples, and all together: words.sh
#
# It takes a second, and exits with status 1 if README has more than 75 lines or 900 words, or all pages together have
# more than 38,000 words, 1,750 on `key`, `text`, `attach` and `signers`, 1,020 on `lmskey`, and 1,280 on
# `--why`.
set -euo pipefail
cd "$(dirname "$0")/../.."

wc -w README.md CONTRIBUTING.md SECURITY.md CHANGELOG.md docs/*
total=$(cat README.md CONTRIBUTING.md SECURITY.md CHANGELOG.md docs/* | wc -w)
[ "$(wc -l < README.md)" -le 75 ] && [ "$(wc -w < README.md)" -le 900 ] && [ "$total" -le 42050 ]
