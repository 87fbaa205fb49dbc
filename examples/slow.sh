# An interpreter that answers each line with the line itself, after a second.
printf '\002verbatim:\005'
while IFS= read -r l; do sleep 1; printf '\002verbatim:%s\005' "$l"; done
