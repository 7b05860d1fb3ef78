# Zone text as it is read and printed (RFC 1035, 5). The written form is one record a line, the SOA first and then canonical order (RFC 4034,
# 6.1).

# a zone's own form, under the root
takes <zones/example.test.zone
printed=${input%$'\n'}
prints "$printed" check -

# the same records in another order, with directives, comments, names under the origin and parentheses
takes <<'end'
; a comment␍
$TTL 5
www 3600 CNAME web
web IN 3600 A 192.0.2.10 ; the TTL stands behind the class
$TTL 3600
out CNAME host.example.net.
@ SOA NS1 Admin (
    1 7200 ; every two hours
    900 1209600
    300)
 NS ns1

ns1 1 a 192.0.2.1
$ORIGIN sub
@ NS ns
ns A 192.0.2.53
$ORIGIN example.test.
mail MX 10 web
loop2 CNAME loop1
loop1 CNAME loop2
*.dyn A 192.0.2.99
a.b TXT x
ns1 in A 192.0.2.1
end
prints "$printed" check --origin example.test -

# relative names are written whole, so under the root, and so below it; an origin without a final dot is relative to the root
takes <<'end'
@ 5 SOA a b 1 2 3 4 5
@ 5 NS a
a 5 A 192.0.2.1
end
prints '. 5 IN SOA a. b. 1 2 3 4 5
. 5 IN NS a.
a. 5 IN A 192.0.2.1' check --origin . -
for origin in X.test x.test.; do
    prints 'x.test. 5 IN SOA a.x.test. b.x.test. 1 2 3 4 5
x.test. 5 IN NS a.x.test.
a.x.test. 5 IN A 192.0.2.1' check --origin $origin -
done

# each type, sets of several records, TTLs that differ, and names and strings with escapes (RFC 1035, 5.1; RFC 3596, 2.1; RFC 2782): its own form
takes <<'end'
. 0 IN SOA . . 4294967295 0 0 0 0
. 2147483647 IN NS a.
. 2147483647 IN NS b.
. 1 IN MX 0 a\.b.
a. 60 IN A 0.0.0.0
a. 60 IN A 255.255.255.255
a. 61 IN TXT "" "a\"b\\c \000\255"
a. 61 IN AAAA 2001:db8:0:0:0:0:0:1
a\.\;\032b. 7 IN PTR .
b. 8 IN CNAME c.
_x._tcp.b. 9 IN SRV 0 65535 53 a.
end
prints "${input%$'\n'}" check --origin . -

# data have at most 4,096 octets: sixteen strings of 255, each behind its length
takes_zone <zones/example.test.zone
strings=$(repeat 16 " \"$(repeat 255 x)\"")
input=$zone_text'long.example.test. 3600 IN TXT'${strings//\"}$'\n'
spans '*' $'example.test. 3600 IN SOA *\nlong.example.test. 3600 IN TXT'"$strings"$'\n*' check -
input=$zone_text'long.example.test. 3600 IN TXT'${strings//\"}$' x\n'
refuses 1 'line 14: M13 Limit' check -
# and so many of one octet: 2,049 strings are one too many
input=$'a 1 TXT 1\nb TXT'$(repeat 2049 ' c')
refuses 1 'line 2: M13 Limit' check --origin test. -

# a set has at most 256 records: exchanges, services or addresses whose data differ in one number
for data in 'MX % web' 'SRV 0 0 % web' 'AAAA ::%'; do
    input=$zone_text
    for number in {0..256}; do input+="many.example.test. 3600 IN ${data/\%/$number}"$'\n'; done
    refuses 1 'line 270: M13 Limit' check --origin example.test -
done

# 256 records and one of them again are a set of 256, of which a warning tells on standard error
input=$'. 5 SOA . . 1 2 3 4 5\n. 5 NS .\n'
for number in {0..255}; do input+="many. 5 IN MX $number ."$'\n'; done
printed=${input%$'\n'}
printed=${printed/5 NS/5 IN NS}
input+=$'many. 5 MX 255 .\nmany. 5 MX 0 .\n'
tries check --origin . -
[[ $got == 0 && $said == "${printed//5 SOA/5 IN SOA}"$'\n' && $told == 'warning: many. has a set of more than 100 records'* ]] || differs "${printed//5 SOA/5 IN SOA}" check --origin . -
input+=$'many. 5 MX 256 .\n'
refuses 1 'line 261: M13 Limit' check -

# equal records are one, and the last one sets the TTL of its set
reads --origin test. <<'end'
$TTL 60
@ SOA a b 1 2 3 4 5
@ NS a
=>
test. 60 IN SOA a.test. b.test. 1 2 3 4 5
test. 60 IN NS a.test.
end
reads --origin test. <<'end'
$TTL 60
@ SOA a b 1 2 3 4 5
@ NS a
w A 1.2.3.4
w A 1.2.3.5
w 30 A 1.2.3.4
=>
test. 60 IN SOA a.test. b.test. 1 2 3 4 5
test. 60 IN NS a.test.
w.test. 30 IN A 1.2.3.4
w.test. 30 IN A 1.2.3.5
end
reads --origin test. <<'end'
$TTL 60
@ SOA a b 1 2 3 4 5
@ NS a
@ 30 SOA a b 1 2 3 4 5
=>
test. 30 IN SOA a.test. b.test. 1 2 3 4 5
test. 60 IN NS a.test.
end

# the small zone of the examples
reads --origin test. <<'end'
example.test. 3600 IN SOA ns1.example.test. admin.example.test. 1 7200 900 1209600 300
example.test. 3600 IN NS ns1.example.test.
a.b.example.test. 3600 IN TXT "x"
*.dyn.example.test. 3600 IN A 192.0.2.99
mail.example.test. 3600 IN MX 10 web.example.test.
out.example.test. 3600 IN CNAME host.example.net.
ns.sub.example.test. 3600 IN A 192.0.2.53
=>
example.test. 3600 IN SOA ns1.example.test. admin.example.test. 1 7200 900 1209600 300
example.test. 3600 IN NS ns1.example.test.
a.b.example.test. 3600 IN TXT "x"
*.dyn.example.test. 3600 IN A 192.0.2.99
mail.example.test. 3600 IN MX 10 web.example.test.
out.example.test. 3600 IN CNAME host.example.net.
ns.sub.example.test. 3600 IN A 192.0.2.53
end

# what may be left out, and what is then in force (RFC 1035, 5.1; RFC 2308, 4): the records of each text, behind those of an apex
takes_zone <<'end'
. 9 SOA . . 1 2 3 4 5
. 9 NS .
end
apex=$'. 9 IN SOA . . 1 2 3 4 5\n. 9 IN NS .\n'
adds() {
    takes
    printed=${input#*$'=>\n'}
    input=$zone_text${input%$'=>\n'*}
    prints "$apex${printed%$'\n'}" check --origin test. -
}
# the TTL and the class, and the owner
adds <<'end'
a 5 IN A 1.1.1.1
=>
a.test. 5 IN A 1.1.1.1
end
adds <<'end'
a 5 IN A 1.1.1.1
  IN 6 A 2.2.2.2
=>
a.test. 6 IN A 1.1.1.1
a.test. 6 IN A 2.2.2.2
end
adds <<'end'
a 5 IN A 1.1.1.1
  IN 6 A 2.2.2.2
␉A 3.3.3.3
B A 4.4.4.4
=>
a.test. 6 IN A 1.1.1.1
a.test. 6 IN A 2.2.2.2
a.test. 6 IN A 3.3.3.3
b.test. 6 IN A 4.4.4.4
end
# the TTL that $TTL gives
adds <<'end'
$TTL 60
a 5 A 1.1.1.1
=>
a.test. 5 IN A 1.1.1.1
end
adds <<'end'
$TTL 60
a 5 A 1.1.1.1
 A 2.2.2.2
$TTL 0
b A 3.3.3.3
=>
a.test. 60 IN A 1.1.1.1
a.test. 60 IN A 2.2.2.2
b.test. 0 IN A 3.3.3.3
end
# the origin that $ORIGIN gives
adds <<'end'
$ORIGIN x
@ 1 NS a
$ORIGIN Y.x
 NS @
$ORIGIN z.
a NS a.
=>
x.test. 1 IN NS a.x.test.
x.test. 1 IN NS y.x.x.test.
a.z. 1 IN NS a.
end
# records over several lines
input=$zone_text$'a (1\nIN\n) A ( 1.1.1.1 ) ; c\n( b 2 A 2.2.2.2\n)\n A 3.3.3.3'
prints "${apex}a.test. 1 IN A 1.1.1.1
b.test. 2 IN A 2.2.2.2
b.test. 2 IN A 3.3.3.3" check --origin test. -
# owners that look like something else
adds <<'end'
\$TTL 1 A 1.1.1.1
1 2 A 2.2.2.2
IN 3 in a 3.3.3.3
\@ A 4.4.4.4
=>
\$ttl.test. 1 IN A 1.1.1.1
1.test. 2 IN A 2.2.2.2
\@.test. 3 IN A 4.4.4.4
in.test. 3 IN A 3.3.3.3
end
# words that stand without blanks between them
adds <<'end'
a 2147483647 TXT b"c"d
=>
a.test. 2147483647 IN TXT "b" "c" "d"
end
adds <<'end'
a 5 TXT b"c d"e
b 5 TXT """a;b(c)d"e;f
c(5
␉TXT)d(
)e
=>
a.test. 5 IN TXT "b" "c d" "e"
b.test. 5 IN TXT "" "a;b(c)d" "e"
c.test. 5 IN TXT "d" "e"
end
# octets behind a backslash, and a CR that is at no line's end
adds <<'end'
a 5 TXT a\ b \" \;c \( \\ d
b 5 TXT "a\"b" "\\" c
c 5 TXT a␍b ␍␍c
d 5 TXT a\␍b
=>
a.test. 5 IN TXT "a b" "\"" ";c" "(" "\\" "d"
b.test. 5 IN TXT "a\"b" "\\" "c"
c.test. 5 IN TXT "a\013b" "\013\013c"
d.test. 5 IN TXT "a\013b"
end
# lines without an entry, and entries behind a parenthesis at the begin of a line
adds <<'end'

␠
;a
  ;b
( ; c
)
(

 a 5 A 1.1.1.1)
 A 2.2.2.2
=>
a.test. 5 IN A 1.1.1.1
a.test. 5 IN A 2.2.2.2
end

# The expected texts and faults from here on were computed by another program than this one. Tabs, CR LF, escapes in names, owners and TTLs left
# out, a TTL behind its class, other origins, a comment with parentheses and a backslash at its end, an alias told again in another case, a blank
# line, a zone whose SOA isn't first:
reads --origin example.test. <<'end'
example.test.␉IN␉02147483647␉ns␉*␍
*.b  ␉3600␉A 192.0.2.7
@ IN 299␉soa @ b.t-1.example.test. 2147483648 4294967295 0300 300 04294967295␉
  ␉02147483647 NS 0b-c.example.te\115t.
*.b.example.test. in 3600␉TXT ZZX
=>
example.test. 299 IN SOA example.test. b.t-1.example.test. 2147483648 4294967295 300 300 4294967295
example.test. 2147483647 IN NS *.example.test.
example.test. 2147483647 IN NS 0b-c.example.test.
*.b.example.test. 3600 IN A 192.0.2.7
*.b.example.test. 3600 IN TXT "ZZX"
end
reads --origin tEsT. <<'end'
@␉3600 NS 99
 NS .
$ORIGIN .
test. IN  ␉ns x9cz.dyn.web.test.
TeSt.␉In NS a.7.tEST.
 IN NS sUB.\009.tEST.␠
 IN SOA x.a.test. test. 2454784216␉0 3600 4294967295␉1␠
Test␉03600 NS  ␉aaaaaaaaaaaaaa\097aaaaaaaaaaaa\097aaaaaaaaaaaaaaaaaaaaaaaaaaaaaaaaaaa.x.test.
TEST. NS␉99.test.
 IN␉NS a.7.test.
=>
test. 3600 IN SOA x.a.test. test. 2454784216 0 3600 4294967295 1
test. 3600 IN NS .
test. 3600 IN NS a.7.test.
test. 3600 IN NS 99.test.
test. 3600 IN NS sub.\009.test.
test. 3600 IN NS x9cz.dyn.web.test.
test. 3600 IN NS aaaaaaaaaaaaaaaaaaaaaaaaaaaaaaaaaaaaaaaaaaaaaaaaaaaaaaaaaaaaaaa.x.test.
end
reads --origin example.test. <<'end'
wWW.0.SuB 0003600  ␉IN mx 00  ␉\".*
$ORIGIN example.test.
@␉IN 299 A 192.0.2.0
$ORIGIN t\101st.
 3600 AAAA  ␉1:1:100:100:ab00:01:00ab:1
0.Sub.example.TeSt. 03600  ␉ns  ␉exampl\101.test.
example 2147483647 SRV 53 0001  ␉1␉a.\101xampl\101␍
$ORIGIN .
example.te\115t.␉IN 01  ␉SOA example.test  ␉example.test. 04294967294 4294967295 4294967295 4294967295␉4294967295
␉In 0001 ns  ␉example.test.␍
a.example.test. 3600␉TXT␉"Z"
=>
example.test. 1 IN SOA example.test. example.test. 4294967294 4294967295 4294967295 4294967295 4294967295
example.test. 299 IN A 192.0.2.0
example.test. 1 IN NS example.test.
example.test. 3600 IN AAAA 1:1:100:100:ab00:1:ab:1
example.test. 2147483647 IN SRV 53 1 1 a.example.test.
a.example.test. 3600 IN TXT "Z"
0.sub.example.test. 3600 IN NS example.test.
www.0.sub.example.test. 3600 IN MX 0 \".*.example.test.
end
reads --origin EXamplE.TeSt. <<'end'
␉
1c.web 3600 A  ␉192.0.2.5
\101.web 2147483647  ␉IN␉PTR example.test.
cn 5 CNAME b
cn 5 CNAME B
@ 301 in NS @
 3600 In  ␉SOA . @ 3689089597  ␉2147483648 2147483648 0 1 ;);\
n0.y9.exam\112le.test. 3600 CNAME n1.examp\108e.test. ;
\1101.Example.tEst. 301  ␉CNAME n2.y.exam\112le.te\115t.
web.example.test.  ␉000300␉IN a␉192.0.2.0
w\101b␉299␉in NS 1c.weB.ExAMPle.T\101st.
␉299 NS web
e.web.example.test. 2147483647␉PTR␉exam\112le.tes\116.
web.example.test. 0300 A␉192.0.2.0
=>
example.test. 3600 IN SOA . example.test. 3689089597 2147483648 2147483648 0 1
example.test. 301 IN NS example.test.
cn.example.test. 5 IN CNAME b.example.test.
n1.example.test. 301 IN CNAME n2.y.example.test.
web.example.test. 300 IN A 192.0.2.0
web.example.test. 299 IN NS 1c.web.example.test.
web.example.test. 299 IN NS web.example.test.
1c.web.example.test. 3600 IN A 192.0.2.5
e.web.example.test. 2147483647 IN PTR example.test.
n0.y9.example.test. 3600 IN CNAME n1.example.test.
end

# a directive that isn't served, a name that is too long, a preference left out, another class, a word too many, a stray parenthesis, a quote
# without its end:
reads --origin . <<'end'
dyn.dyn.example.test. in 3600 A  ␉192.0.2.3
Exa\077PLE.tEST. 60 NS ns1.www.exam\112le.test.
$INCLUDE x
␉; x
  ␉00060 IN NS  ␉*.\109ail.eXAMple.teSt.
 0300 soa  ␉e\120ample.test.␉ex\097mple.test. 03063646347  ␉0004294967295  ␉3600  ␉04294967295  ␉300
mail.example.test 1  ␉IN  ␉AAAA  ␉::001:ab00:AB00:AB:100:00:ab00
=>
line 3: M1 Directive
end
reads --origin example.test. <<'end'
*.d.B 1 A 192.0.2.5
@ 0003600 NS  ␉@
␉in 300  ␉SOA example.test. EX\097mPLe.teST.  ␉0002448876156 300␉1 0004294967295 3600  ; "(
example.test. 3600  ␉In PTR dyn.e\120\097mple.net. ;
aaaaaaaaaaaaaaaaaaaaaaaaaaaaaaaaaaaaaaaaaaaaaaaaaaaaaaaaaaaaaaa.aaaaaaaaaaaaaaaaaaaaaaaaaaaaaaaaaaaaaaaaaaaaaaaaaaaaaaaaaaaaaaa.aaaaaaaaaaaaaaaaaaaaaaaaaaaaaaaaaaaaaaaaaaaaaaaaaaaaaaaaaaaaaaa.aaaaaaaaaaaaaaaaaaaaaaaaaaaaaaaaaaaaaaaaaaaaaaaaaaaaaaaaaaaaaaa 5 A 192.0.2.1
a 5 A 0.0.0.0␍
=>
line 5: M2 BadName
end
reads --origin ExamPle.TesT. <<'end'
EXAMpLe.teSt. 3600␉in MX 256  ␉*.nS1 ;);\
a 300  ␉IN  ␉CNAME .
$TTL 77
@  ␉86400 SOA  ␉Y.Www.aAAaAaAAaaaAaAaaaaaAAAaaaA\065\097aaAAaaaaaAA\097AAAAaaAaaaa\097aaaaAAaaAaa ex\097mple.test. 2147483648 ( ;
0002147483648
0  ␉) 0  ␉0␠
@␉3600 NS  ␉@
dyn.ns1.eXampLE.tEsT. IN 0003600 aaaa ab01:ABAB:0ab:ABAB:0:000:ab00::
@  ␉3600␉In MX 65535 ex\097mple.t\101st.
dyN.ns\049.EXaMPLe.tEsT.  ␉3600 TXT  ␉"�a@\034"
 3600␉IN␉TXT "Y9YZc"␉bYc0Zc
a 5 MX b␄
=>
line 12: M3 Number
end
reads --origin TEst. <<'end'
\(\009.we\098.test. 3600 NS .␉
*.web.x.d a  ␉192.0.2.2

\0780.DyN.TeST.  ␉301 In CNAME n1
n1 In 300 CNAME  ␉n2
a CS 5 A 192.0.2.1␍
N2 03600 In CNAME n\051.d
n3.d.test.  ␉In␉A 192.0.2.1
n3.d  ␉IN  ␉MX 10 n2.test.
Test.  ␉In 0003600 a 192.0.2.0
$TTL 3600
test.  ␉IN␉3600␉a 192.0.2.1
a 5 TXT x\25
tesT. 3600␉A 192.0.2.6
@ 3600 NS a.test.
 IN 86400  ␉SOA  ␉@ d.t-1␉0␉02147483648 1 0000 300
a 5 TXT "x\"
www.d.\(\009.web.test. (3600 AAAA␉1:000:0:ab:0001:0000:1:100␠
␉)
=>
line 6: M4 BadClass
end
reads --origin eXAmpLE.tEST. <<'end'
@␉IN 2147483647␉SOA␉b.exAmPle.TEst. example.test. 2147483646 0 4294967295 2147483648 2147483648␍
a.web␉03600 MX 0  ␉a
@ 301␉A 192.0.2.1
@ A 192.0.2.3
$ORIGIN test.
 IN␉A 192.0.2.5
exaMpLE  ␉IN  ␉0003600 NS␉0b1.\192.ExaMpLe

a 5 SOA a b 1 2 3 4 5 6␍
exam\112le.test. IN␉1  ␉TXT "Xb" ;);\
(
a 5 SOA a b 1 2 3 4␍
n0.www.example.test.  ␉0003600 CNAME  ␉n1.example  ; "(
$ORIGIN \116es\116.
n1.\101xample.test. IN 3600  ␉CNAME n2.exAmple
y.a.wEB.EXAmPlE In 3600 CNAME t-1.a.example.net.
=>
line 9: M6 BadData
end
reads --origin . <<'end'
examPLE.test. 86400␉SOA _tcp.www.www.example.test.␉example.test. 4294967295 (  ␉3600  ␉300␠
␉0)  ␉1
)
a\255 5 A 192.0.2.1
example.test IN 3600 NS␉eXaMple.tESt.
n0.eXAmple.tesT.␉In 0001 CNAME n1.exa\109ple.\116est.
a.. 5 A 192.0.2.1
n1.e\088ampLE.tesT. CNAME n2.example.test.
n2.e\120AMple.tEst 300 A 192.0.2.5
 3600 In MX 256 X.maIl.b.ExAmPLe.test.␍␄
=>
line 3: M7 Unclosed
end
reads --origin Example.teST. <<'end'
@  ␉IN␉60 SOA @ \101xample.tes\116. 2147483648 0002147483648  ␉0000  ␉03600 0002147483648
*.eXaMple.TEst. 3600 MX␉256 *.mAil.*.\101xaMPLE.TeST.
" x
*  ␉3600␉TXT␉sss\115ssssssssssss\115\115ssssssssssssss\115ssssss\115\115sss\115sssssssssss\115ssssssssssssssss\115sssssssssssssssssssssssssssssssssssssssssssssssssssssssssssssssss\115sssssssssss\115\115sssssssssssssssssssssssssssssssssssssssssssssss "Y" "ca"
@ 299 in  ␉NS␉@
net. 5 TXT x
=>
line 3: M7 Unclosed
end

# no TTL in force, no owner before, no name server at the apex, a second alias at an owner:
reads --origin exaMpLe.test. <<'end'
@ soa  ␉*.t-1.eXaMPlE.test. nS1.\224\).EXaMple.\110et. 5 0003600␉02147483648␉1 0
␉301␉In  ␉NS 0.example.test.
=>
line 1: M8 NoTtl
end
reads --origin . <<'end'
 x
web 3600 PTR  ␉x
  ␉3600 In ptr Ns1.
 In  ␉ptr @
a 5 TXT (
 "x
 )
$ORIGIN @
a 5 TXT ( x
cn A 192.0.2.1
cn 5 CNAME b
.  ␉NS e.sub.b.␍
@ 0301␉SOA @ @  ␉2147483647  ␉3600 0000 300 0300
@  ␉3600  ␉in  ␉ns (A.)
␉IN NS @
=>
line 1: M9 NoOwner
end
reads --origin example.test. <<'end'
n1.www.example.test. 3600 IN CNAME n2.example.test.
*.7.www.x.y.example.test. 3600 IN MX 1 0.7.example.test.
0y.\255{b.7.www.x.y.example.test. 60 IN TXT "e"
example.test. 3600 IN SOA example.test. _tcp.dyn.y.example.test. 0 3600 1 2147483648 2147483648
x.y.example.test. 301 IN TXT "bXX9c YZ"
n2.example.test. 299 IN CNAME n3.example.test.
x.y.example.test. 301 IN TXT "@ \\\128\009"
n3.example.test. 3600 IN CNAME b.7.ns1.example.test.
*.7.www.x.y.example.test. 1 IN A 192.0.2.1
n0.example.test. 3600 IN CNAME n1.www.example.test.
=>
line 0: M11 Apex
end
reads --origin exAMplE.tEsT. <<'end'
dyn.exam\112le.test. 3600 CNAME  ␉sub.mail.example.net.
cn 5 CNAME b
cn 5 CNAME c
@  ␉3600 IN NS␉y.\127\000\\
 2147483647 SOA example.test. @␉4294967294 2147483648 4294967295 300  ␉3600
@  ␉0300 in mx␉00065535␉\115Ub.y.\101X\097\109Ple.T\101ST.
$TTL 3600
x.*.DYN  ␉IN␉AAAA  ␉ab00:AB:0000:0001:0001:100:0.0.0.0
y 299 IN CNAME llllllllllllllllllllllllllllllllllllllllllllll\108.llllllllllllll\108llllllllllllllllllllllllllllllllllllllllllllllll.lllllllllllllllllllllllllllllll\108llllllllllll\108llllllllllllllllll.\108lllllllllllllllllllll\108llllllllllllllllllllllllllllllllllllllll.\101xample.test.
=>
line 3: M12 Conflict
end
