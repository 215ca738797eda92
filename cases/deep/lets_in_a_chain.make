printf '|x: i64|'
last=x
for n in {1..1024}; do printf ' let a%d = %s + 1L;' "$n" "$last"; last=a$n; done
printf ' a1024\n%%%%\n%%value\n3\n'
