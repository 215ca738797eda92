# 150,000 numbers of one digit, so that a comma stands at every second place.
cat << 'W'
|v: vec[i64]| {len(v), result(for(v, merger[i64,+], |b,i,x| merge(b, x * i)))}
%%
%value
W
awk 'BEGIN { for (i = 0; i < 150000; i++) printf "%s%d", i == 0 ? "[" : ",", (i * 7 + int(i / 11)) % 10; print "]" }'
