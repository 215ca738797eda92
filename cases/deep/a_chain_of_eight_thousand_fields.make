printf '|a: i64| a'
for n in {1..8000}; do printf '.$0'; done
printf '\n'
