# Scripts, with queries and updates (RFC 2136); the replies' octets are those of RFC 1035, 4.1, and the words are our own.

takes_zone <zones/example.test.zone
# the query for www.example.test., type A, and its reply
www=12340100000100000000000003777777076578616d706c6504746573740000010001
www_reply=12348500000100020000000003777777076578616d706c6504746573740000010001c00c0005000100000e10000603776562c010c02e0001000100000e100004c000020a
# an update that adds an address at new.example.test., but for the last of the address's octets, and its reply where it is taken
add=432128000001000000010000076578616d706c6504746573740000060001036e6577c00c0001000100000e100004c00002
taken=4321a8000000000000000000
# the question for what changed since serial 1 (RFC 1995, 3)
since_1=123400000001000000010000076578616d706c6504746573740000fb0001c00c0006000100000000001600000000000100000000000000000000000000000000
# with REQUEST OPT: the request with an OPT behind it, in its additional section
with() { printf '%s' "${1:0:20}0001${1:24}$2"; }
# OPTs of requests, of 512 octets with DO, and of version 1; and those of the replies, of 1232 octets: the latter's code is BADVERS, 16
# (RFC 6891, 6.1.2, 6.1.3 and 9)
opt=0000290200000080000000
ours=00002904d0000080000000
version_1=0000290200000100000000
badvers=00002904d0010000000000
# told_with CODE OPT: the reply to an update with an OPT, which has the entry of its zone section (RFC 2136, 2.3; own)
told_with() { printf '%s' "4321a80${1}0001000000000001${add:24:36}$2"; }

# the query for new.example.test., type A; its reply where it is a name error, with the SOA, whose TTL is its MINIMUM (RFC 2308, 3); and where an
# update has added its address
new=123401000001000000000000${add:60:8}${add:24:28}00010001
new_error=123485030001000000010000${new:24}c010000600010000012c0022036e7331c0100561646d696ec0100000000100001c2000000384001275000000012c
new_reply=123485000001000100000000${new:24}c00c0001000100000e100004c000024d

# no step
input=$zone_text$'%\n'
prints '' steps -

# two names in use; the last line wants its end
plays <<end
load a => a 0
ask a $www => $www_reply
ask b $www => not enabled
ask a 00 => -
load a => not enabled
load b2345678 => b2345678 0
drop a => left
drop a => not enabled
drop b2345678␄ => left
end

# a call under way reserves the name that it is to put into use, and gives up the one that it drops
plays <<end
begin x load a => ok
ask a $www => not enabled
load a => not enabled
load b => b 0
next x => load a 0
ask a $www => $www_reply
begin x drop a => ok
begin y ask b $www => $www_reply
begin y drop a => not enabled
load a => a 0
next x => release left
next x => not enabled
begin x drop c => not enabled
end

# requests with an OPT: each reply has one too, which copies DO, that of an update at its last step (RFC 6891, 6.1.1 and 6.1.4); the first slot
# is in use
plays <<end
load a => a 0
ask a $(with $www $opt) => $(with $www_reply $ours)
begin y ask a $(with $www $opt) => $(with $www_reply $ours)
begin u update $(with ${add}4d $opt) => ok
next u => probe
next u => probe
next u => prepare
next u => swap
next u => settle
next u => load
next u => note
next u => release
next u => release $(told_with 0 $ours)
update $(with ${add}4d $opt) => $(told_with 0 $ours)
update ${add}4d => $taken
load b => b 1
end

# those whose OPT isn't obeyed, of version 1, make no version: a query and an update get BADVERS, each where it is a step, and a question for
# what changed gets nothing (RFC 6891, 6.1.3)
plays <<end
load a => a 0
ask a $(with $www $version_1) => 123481000001000000000001${www:24}$badvers
update $(with ${add}4d $version_1) => $(told_with 0 $badvers)
ask a $(with ${add}4d $version_1) => not enabled
ask a $(with ${add}4d $opt) => not enabled
update $(with $www $version_1) => not enabled
ixfr a $(with $since_1 $version_1) => not enabled
ask a $(with $since_1 $opt) => not enabled
load b => b 0
end

# a text of two strings of 255 letters at big.example.test.: a reply of 569 octets with an OPT, and of 558 without one. It goes to one who takes
# as many; others get TC 1 and the question, with an OPT where they sent one (RFC 1035, 4.2.1; RFC 6891, 6.2.3 to 6.2.5).
letters=ff$(repeat 255 61)
big=03626967${add:24:28}00100001
taking() { printf '%s' "000029${1}000000000000"; }
plays <<end
update ${add:0:60}03626967c00c0010000100000e100200$letters$letters => $taken
load a => a 1
ask a $(with 123401000001000000000000$big $(taking 0239)) => 123485000001000100000001${big}c00c0010000100000e100200$letters${letters}00002904d0000000000000
ask a $(with 123401000001000000000000$big $(taking 0238)) => 123487000001000000000001${big}00002904d0000000000000
ask a 123401000001000000000000$big => 123487000001000000000000$big
end

# a name that only the second version has: asked of the first it is a name error (RFC 1035, 4.1.1), of the second it has its address
plays --keep 0 --window 0 <<end
load a => a 0
update ${add}4d => $taken
load b => b 1
ask a $new => $new_error
begin x ask b $new => $new_reply
drop a => buried 0
drop b => left
end

# lines that aren't enabled, behind a call that is to put a name into use: an update while one is under way, also one that can't be read; a query that is
# sent as an update, and an update that is asked
plays --keep 0 --window 0 <<end
load a => a 0
begin x load b => ok
update $new => not enabled
begin u update ${add}4d => ok
load a => not enabled
load b => not enabled
begin y load b => not enabled
drop b => not enabled
drop c => not enabled
ask b 00 => not enabled
ask a ${add}4d => not enabled
begin x drop a => not enabled
next y => not enabled
update ${add}4d => not enabled
update 432128000000000000000000 => not enabled
end

# nobody waits for an owner that is stopped, behind its release or behind its burial: versions are loaded, published and buried
plays --keep 0 --window 0 <<end
load a => a 0
update ${add}4d => $taken
begin x drop a => ok
next x => release
load b => b 1
update ${add}02 => $taken
drop b => buried 1
load c => c 2
next x => bury
update ${add}03 => $taken
load d => d 3
drop c => buried 2
drop d => left
next x => fade
next x => reset
next x => free buried 0
next x => not enabled
end

# an upgrade raises what its last owner has released: the owner's bury comes late, and meets the slot's next version
plays --keep 0 --window 0 <<end
load a => a 0
weak a w => w 0
update ${add}4d => $taken
begin x drop a => ok
next x => release
up w b => b 0
fade w => ok
drop b => buried 0
update ${add}02 => $taken
load c => c 2
update ${add}03 => $taken
begin y drop c => ok
next y => release
next x => bury
next x => fade
next x => reset
next x => free buried 2
next y => bury left
load d => d 3
end

# an upgrade that has looked at a version before it is buried gives none behind that; the slot is free when the weak owner has faded
plays --keep 0 --window 0 <<end
load a => a 0
copy a b => b 0
weak b w => w 0
update ${add}4d => $taken
drop b => left
begin x drop a => ok
next x => release
begin z up w c => ok
fade w => not enabled
up w d => not enabled
next z => look
next x => bury
next z => raise none
next x => fade buried 0
up w c => none
begin y fade w => ok
next y => fade
next y => reset
next y => free ok
fade w => not enabled
end

# a second update, a step at a time, where one version beside the last is kept, and where two are: slots 0 and 1 are in use, and the first version is given
# up where it is the third one
steps_of_an_update="update ${add}4d => $taken
begin u update ${add}02 => ok
next u => probe
next u => probe
next u => probe
next u => prepare
next u => swap
next u => settle
next u => load"
plays --keep 1 --window 0 <<end
$steps_of_an_update
next u => release
next u => release
next u => bury
next u => fade
next u => reset
next u => free $taken
next u => not enabled
end
plays --keep 2 --window 0 <<end
$steps_of_an_update
next u => release $taken
next u => not enabled
end

# an owner that is dropped, and an update, a step at a time: behind its swap its version is loaded, and another update isn't enabled before it
# ends. There is no window, so that it notes nothing.
plays --window 0 <<end
load a => a 0
update ${add}4d => $taken
begin x drop a => ok
next x => release
next x => bury
next x => fade
next x => reset
next x => free buried 0
begin u update ${add}4e => ok
next u => probe
next u => prepare
next u => swap
load b => b 2
update ${add}4f => not enabled
next u => settle
next u => load
next u => release
next u => release
next u => bury
next u => fade
next u => reset
next u => free $taken
end

# a window of one: the update notes the version that it made, whose entry comes in for that of the version before. Its own owner of that one is
# given up first, and the one who buries it leaves the entry's; giving that up frees the slot. With an owner the version stays.
plays --window 1 <<end
begin u update ${add}4d => ok
next u => probe
next u => probe
next u => prepare
next u => swap
next u => settle
next u => load
next u => note
next u => release
next u => release
next u => bury
next u => fade
next u => fade
next u => reset
next u => free $taken
load a => a 1
begin u update ${add}4e => ok
next u => probe
next u => prepare
next u => swap
next u => settle
next u => load
next u => note
next u => release
next u => release
next u => fade $taken
drop a => buried 1
end

# a window of two: the entry of a buried version keeps its slot from being free
plays --window 2 <<end
load a => a 0
update ${add}4d => $taken
begin x drop a => ok
next x => release
next x => bury
next x => fade buried 0
begin u update ${add}4e => ok
next u => probe
next u => probe
next u => probe
next u => prepare
end

# in a window of three the entries of serials 1 and 2 leave together, where a serial comes that is nearly half the ring after 3: that of the second
# would be half of it away (RFC 1982, 3.2)
far=c00c0006000100000e100022036e7331c00c0561646d696ec00c8000000200001c2000000384001275000000012c
plays --keep 2 --window 3 <<end
update ${add}4d => $taken
update ${add}4e => $taken
update ${add:0:60}$far => $taken
load b => b 3
ask b 123401000001000000000000${add:24:36} => 123485000001000100000000${add:24:36}$far
end

# what changed since serial 1 through two updates, from SOA to SOA (RFC 1995, 4): the SOAs behind the first point at its names, and the second
# address at the first one's
soa() { printf '%s' "c00c0006000100000e100018c02ac030000000${1}00001c2000000384001275000000012c"; }
two_changes=123484000001000800000000${since_1:24:36}c00c0006000100000e100022036e7331c00c0561646d696ec00c0000000300001c2000000384001275000000012c
two_changes+=$(soa 01)$(soa 02)${add:60:12}0001000100000e100004c000024d$(soa 02)$(soa 03)c0940001000100000e100004c000024e$(soa 03)

# a question for what changed makes owners of the entries behind the asker's, one behind the other, and gives them up behind its reply. Before
# the last of them is made, no update and no other question for what changed begins.
plays --keep 2 --window 3 <<end
update ${add}4d => $taken
update ${add}4e => $taken
load b => b 2
begin x ixfr b $since_1 => ok
drop b => not enabled
next x => look
update ${add}4f => not enabled
ixfr b $since_1 => not enabled
load c => c 2
next x => raise
next x => look
begin u update ${add}4f => not enabled
next x => raise
begin u update ${add}4f => ok
next x => release
next x => release $two_changes
drop b => left
end

# a version behind the asker's is buried: none is made an owner, and the zone goes out in whole, 16 answers with its closing SOA
input=$zone_text$'%\nupdate '${add}4d$'\nupdate '${add}4e$'\nload b\nbegin x ixfr b '$since_1$'\nnext x\nupdate '${add}4f$'\n'
spans '*' $taken$'\n'$taken$'\nb 2\nok\nlook 123484000001001000000000*\n'$taken steps --keep 0 --window 3 -

# an owner copied, and a weak owner: an upgrade gives an owner until the version is buried, and none from then on
plays --window 0 <<end
load a => a 0
copy a b => b 0
copy c d => not enabled
copy a b => not enabled
weak a w => w 0
weak b w => not enabled
update ${add}4d => $taken
drop b => left
begin x drop a => ok
next x => release
begin z up w c => ok
fade w => not enabled
up w d => not enabled
next z => look
next z => raise c 0
next x => bury left
drop c => buried 0
up w c => none
up c d => not enabled
begin y fade w => ok
next y => fade
next y => reset
next y => free ok
fade w => not enabled
end

# a version that is owned stays as it is through 200 others
plays <<end
load a => a 0
$(for number in {1..200}; do printf 'update %s%02x => %s\n' $add "$number" $taken; done)
ask a $www => $www_reply
drop a => buried 0
end

# 64 versions are owned: an update finds no slot, until one of them is buried whose entry has left the window
plays <<end
load h0 => h0 0
$(for number in {1..63}; do printf 'update %s%02x => %s\nload h%d => h%d %d\n' $add "$number" $taken "$number" "$number" "$number"; done)
update ${add}40 => 4321a8020000000000000000
update $(with ${add}40 $opt) => $(told_with 2 $ours)
drop h60 => buried 60
update ${add}40 => 4321a8020000000000000000
drop h47 => buried 47
update ${add}40 => $taken
load a => a 64
end

# 64 calls are under way: a line that isn't enabled is no 65th, and one that is passes the limit
begun=$(for number in {1..64}; do printf 'begin x%d load h%d\n' "$number" "$number"; done)
plays <<end
${begun//$'\n'/ => ok$'\n'} => ok
load h1 => not enabled
next x1 => load h1 0
load z => z 0
end
input=$zone_text$'%\n'$begun$'\nload h1\nnext x1\nload z\nbegin x1 load y\nload v\n'
says 1 'V2 Limit' steps -
# and so does each line that is a 65th call: one that takes steps, one that takes none, and one that is put under way
for line in 'load v' 'drop a' "ask a $www" 'ask a 00' "ixfr a $since_1" "update ${add}4d" 'begin y load v' 'begin y drop a' "begin y ask a $www" "begin y ixfr a $since_1" "begin y update ${add}4d"; do
    input=$zone_text$'%\nload a\n'$begun$'\n'$line$'\n'
    says 1 'V2 Limit' steps -
done
# one that isn't enabled is none
for line in 'load a' 'drop v' "ask v $www" "ixfr v $since_1" "ixfr a $www" 'update 00' 'begin x1 drop a' 'begin y load h2' 'next y'; do
    input=$zone_text$'%\nload a\n'$begun$'\n'$line$'\n'
    prints $'a 0\n'"$(repeat 64 $'ok\n')"$'\nnot enabled' steps -
done

# seventy names are in use at once
plays <<end
$(for number in {0..69}; do printf 'load a%d => a%d 0\n' "$number" "$number"; done)
end

# 65,535 octets are a request, whose reply is a header alone: the query is of OPCODE 0 and has no question; 65,536 are none
longest=$'load a\nask a '$(repeat 65535 00)
input=$zone_text$'%\n'$longest
prints $'a 0\n000080010000000000000000' steps -
input=$zone_text$'%\n'${longest}00$'\n'
says 1 'line 2: bad' steps -

# more than 2^16 lines
input=$zone_text$'%\n'$(repeat 66000 $'drop a\n')$'\n'
prints "$(repeat 66000 $'not enabled\n')" steps -

# lines that are no step, behind one that says a step, and in front of a bad one, which isn't told
while IFS= read -r line; do
    spell "$line"
    input=$zone_text$'%\nload a\n'$spelt$'\nbad\n'
    says 1 'line 2: bad' steps -
done <<'end'

load
load␠
load  a
 load a
load a␠
load a␍
load a b
load A
load a-b
load abcdefghi
LOAD a
loada
drop
drop a b
copy a
copy a B
copy a b c
weak a
weak a  b
fade
fade a b
up a
up A b
ask a
ask a␠
ask a 0
ask a 0g
ask a  00
ask a 00␠
ask a 00 00
ask A 00
ask
update
update␠
update 0g
update 00 00
begin
begin x
begin x load
begin X load a
begin x  load a
begin x begin y load a
begin x next y
next
next␠
next x y
publish
%
end
