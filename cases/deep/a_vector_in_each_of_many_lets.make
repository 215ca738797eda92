printf '|v: vec[i64]| let a0 = [len(v)];'
for n in {1..800}; do printf ' let a%d = [lookup(a%d, 0L) + %dL];' "$n" "$((n - 1))" "$n"; done
printf ' lookup(a800, 0L)\n%%%%\n%%value\n[1,2,3]\n'
