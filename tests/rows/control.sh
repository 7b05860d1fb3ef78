# The commands for a running server, from the outside: `dnsd control` without a server, and `dnsd serve --control` where the path can't be listened on.
socket=$room/control
zone=$room/control.zone
cat >"$zone" <<'end'
example. 3600 IN SOA ns.example. host.example. 6 1 1 1 1
example. 3600 IN NS ns.example.
end
input=

# words
row 2 "COMMAND: 'restart' is none of reload, status, stats and stop" control "$socket" restart
row 2 'PATH' control
row 2 'COMMAND' control "$socket"

# nobody listens: no file, a file that is no socket
says 3 "error: no server answers on '$socket': No such file or directory (os error 2)" control "$socket" status
printf text >"$socket"
says 3 "error: no server answers on '$socket': Connection refused (os error 111)" control "$socket" status

# a server doesn't take a file that is no socket, and leaves it
tries serve --listen 127.0.0.1:0 --workers 1 --count 0 --control "$socket" "$zone"
[[ $got == 3 && $told == *"error: --control: '$socket' is a file that is no socket"* ]] || differs "status 3" serve --control "$socket"
[ "$(cat "$socket")" = text ] || fails "the file at --control was changed"
rm "$socket"

# no folder
tries serve --listen 127.0.0.1:0 --workers 1 --count 0 --control "$room/none/control" "$zone"
[[ $got == 3 && $told == *"error: --control: cannot listen on '$room/none/control': No such file or directory (os error 2)"* ]] || differs "status 3" serve --control "$room/none/control"

# a server that ends takes its socket with it; '' is none
tries serve --listen 127.0.0.1:0 --workers 1 --count 0 --control "$socket" "$zone"
[[ $got == 0 && $told == *'control thread exited: 0 commands served'* && ! -e $socket ]] || differs "status 0, and no socket" serve --control "$socket"
tries serve --listen 127.0.0.1:0 --workers 1 --count 0 --control '' "$zone"
[[ $got == 0 && $told != *control* ]] || differs "status 0" serve --control ''

# with 62 threads there is none left for commands
row 2 '--workers 31 with 1 addresses needs more than 62 threads' serve --listen 127.0.0.1:0 --workers 31 --control "$socket" "$zone"

# a socket on which nobody listens any more is taken over
timeout -s KILL 3 "$program" serve --listen 127.0.0.1:0 --workers 1 --control "$socket" "$zone" </dev/null >/dev/null 2>&1 || true
[ -S "$socket" ] || fails 'a server that is killed leaves no socket'
says 3 "error: no server answers on '$socket': Connection refused (os error 111)" control "$socket" status
tries serve --listen 127.0.0.1:0 --workers 1 --count 0 --control "$socket" "$zone"
[[ $got == 0 && ! -e $socket ]] || differs "status 0, and no socket" serve --control "$socket"
