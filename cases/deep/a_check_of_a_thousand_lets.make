last=1
for n in {1..1024}; do printf 'let a%d = %s + 1; ' "$n" "$last"; last=a$n; done
printf '%s\n' "$last"
