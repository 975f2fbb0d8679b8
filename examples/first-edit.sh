#!/bin/sh
# Posts a page to a wiki that is served, reads it back, and shows a conflict and an edit that is sent twice.
#
#     ./wiki serve --connections 1000000 < /dev/null &
#     examples/first-edit.sh [http://127.0.0.1:8080]
#
# Needs curl. Each edit has a token of its own; the jar keeps the session's cookies, so that its views see its edits.
set -eu
wiki=${1:-http://127.0.0.1:8080}
jar=$(mktemp)
trap 'rm -f "$jar"' EXIT
token=$(od -An -N8 -tx1 /dev/urandom | tr -d ' \n')
title="First_$token"

edit() { # BASE TOKEN TEXT
    curl -sS -b "$jar" -c "$jar" -A first-edit -w 'status %{http_code}\n' "$wiki/edit" \
        --data-urlencode "title=$title" --data-urlencode "base=$1" --data-urlencode "token=$2" --data-urlencode "text=$3"
}

echo "An edit of $title:"
edit 0 "$token-1" "The ''first'' page. [[Main Page]]"
echo "The page, as its author sees it:"
curl -sS -b "$jar" -c "$jar" -A first-edit "$wiki/wiki/$title"
echo "The same edit once more is saved once, and answered as before:"
edit 0 "$token-1" "The ''first'' page. [[Main Page]]"
echo "An edit from a revision that is not the newest:"
edit 0 "$token-2" "Too late."
