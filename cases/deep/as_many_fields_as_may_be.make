printf x
for n in {1..8191}; do printf '.$0'; done
printf '\n'
