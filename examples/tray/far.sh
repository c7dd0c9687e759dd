# In place of `ssh -T HOST PROGRAM WORDS`: runs the program here.
echo "on $1: $2 $3" >&2
shift
exec "$@"
