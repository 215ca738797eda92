# 67,108,864 bytes: a job, and blanks behind its data up to the limit
job='|v: vec[i64]| result(for(v, merger[i64,+], |b,i,x| merge(b, x)))
%%
%value
[4]'
printf '%s' "$job"
head -c "$((67108864 - ${#job}))" /dev/zero | tr '\0' ' '
