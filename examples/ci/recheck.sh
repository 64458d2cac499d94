#!/usr/bin/env bash
# Fails unless the report beside the design shows each specification true. Nothing is searched: certificates are judged.
# After a change of the design make the report anew: ../../smvcheck check --cert < design.smv > report
set -eu
cd "$(dirname "$0")"
status=0
shown=$(cat design.smv report | ../../smvcheck recheck) || status=$?
echo "$shown"
[ "$status" = 0 ] && ! grep -qv 'is shown true$' <<< "$shown"
