# 67,108,865 bytes: one more than a job may have
head -c 67108865 /dev/zero | tr '\0' ' '
