printf '|x: i64| x'
for n in {1..8000}; do printf ' + x'; done
printf '\n'
