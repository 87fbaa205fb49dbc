# An interpreter that answers each line with the line itself.
printf '\002verbatim:\005'
while IFS= read -r l; do printf '\002verbatim:%s\005' "$l"; done
