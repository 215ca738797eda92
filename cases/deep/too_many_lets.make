printf '|x: i64|'
for n in {1..3200}; do printf ' let a = x;'; done
printf ' x\n'
