#!/usr/bin/env bash
# Runs the examples and compares what is printed with what is stored beside them.
#
#   examples/run.sh [PROGRAM]
#
# PROGRAM is the built program, and bin/pgq where none is named. In each folder `check schema.sql` must write `ok`, and `check schema.sql QUERY`
# the stored file QUERY.check; QUERY.rows holds the rows of `run`, which are compared where the program serves that command.
set -u
here="$(cd "$(dirname "$0")" && pwd)"
program="${1:-$here/../bin/pgq}"
case "$program" in
  */*) program="$(cd "$(dirname "$program")" && pwd)/$(basename "$program")" ;;
esac
failed=0
passed=0

compare() { # what is compared, the stored file, the command ..
  local what="$1" stored="$2"
  shift 2
  if "$@" 2>&1 | cmp -s - "$stored"; then
    passed=$((passed + 1))
  else
    failed=$((failed + 1))
    echo "differs: $what"
    "$@" 2>&1 | diff - "$stored" | head -5
  fi
}

for folder in "$here"/*/; do
  cd "$folder" || exit 1
  domain="$(basename "$folder")"
  compare "$domain: check schema.sql" <(echo ok) "$program" check schema.sql
  tables=()
  for table in *.csv; do
    tables+=("${table%.csv}=$table")
  done
  for query in *.sql; do
    [ "$query" = schema.sql ] && continue
    compare "$domain: check schema.sql $query" "${query%.sql}.check" "$program" check schema.sql "$query"
    said="$("$program" run schema.sql "$query" "${tables[@]}" 2>&1)"
    case "$said" in
      usage:*) ;; # this command is not served yet
      *) compare "$domain: run schema.sql $query" "${query%.sql}.rows" "$program" run schema.sql "$query" "${tables[@]}" ;;
    esac
  done
done
echo "examples: $passed as stored, $failed differ"
[ "$failed" = 0 ]
