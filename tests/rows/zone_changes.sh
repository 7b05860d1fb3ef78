# What changes from one zone to another, as lines and as the message of the update that does it (RFC 2136, 2.4.2 and 2.5; RFC 1982, 3).
old='$ORIGIN example.test.
@ 3600 IN SOA ns1 admin 1 7200 900 1209600 300
@ 3600 IN NS ns1
ns1 3600 IN A 192.0.2.1
web 3600 IN A 192.0.2.10
www 3600 IN CNAME web
note 3600 IN TXT "two  blanks" "; and a semicolon"'
new='$ORIGIN example.test.
@ 3600 IN SOA ns1 admin 2026112801 7200 900 1209600 300
@ 3600 IN NS ns1
ns1 300 IN A 192.0.2.1
web 3600 IN A 192.0.2.11
www 3600 IN A 192.0.2.11
caa 3600 IN TYPE257 \# 22 000569737375656c657473656e63727970742e6f7267'
soa='example.test. 3600 IN SOA ns1.example.test. admin.example.test.'
rest='7200 900 1209600 300'
lines="- $soa 1 $rest
- note.example.test. 3600 IN TXT \"two  blanks\" \"; and a semicolon\"
- ns1.example.test. 3600 IN A 192.0.2.1
- web.example.test. 3600 IN A 192.0.2.10
- www.example.test. 3600 IN CNAME web.example.test.
+ $soa 2026112801 $rest
+ caa.example.test. 3600 IN TYPE257 \\# 22 000569737375656c657473656e63727970742e6f7267
+ ns1.example.test. 300 IN A 192.0.2.1
+ web.example.test. 3600 IN A 192.0.2.11
+ www.example.test. 3600 IN A 192.0.2.11"
input=$old$'\n%\n'$new$'\n'
prints "$lines" change - -
# the message, of 389 octets: the header, the zone section, the SOA that is to stand, what goes, the new SOA, and what comes
message=000028000001000100090000076578616d706c6504746573740000060001
message+=c00c0006000100000000003a036e7331076578616d706c650474657374000561646d696e076578616d706c650474657374000000000100001c2000000384001275000000012c
message+=046e6f7465c00c001000fe00000000001e0b74776f2020626c616e6b73113b20616e6420612073656d69636f6c6f6e
message+=036e7331c00c000100fe000000000004c0000201
message+=03776562c00c000100fe000000000004c000020a
message+=03777777c00c000500fe00000000001203776562076578616d706c65047465737400
message+=c00c0006000100000e10003a036e7331076578616d706c650474657374000561646d696e076578616d706c6504746573740078c4072100001c2000000384001275000000012c
message+=03636161c00c0101000100000e100016000569737375656c657473656e63727970742e6f7267
message+=036e7331c00c000100010000012c0004c0000201
message+=03776562c00c0001000100000e100004c000020b
message+=03777777c00c0001000100000e100004c000020b
prints "$message" change --hex - -
# it is taken by the old zone, and not by a zone of another SOA: NXRRSET, which is 8
input=$old$'\n%\n'$message$'\n'
prints 0000a8000000000000000000 answer -
input=$new$'\n%\n'$message$'\n'
prints 0000a8080000000000000000 answer -

# nothing changes where the zones differ in nothing but a serial that isn't greater
same=${old/ 1 7200/ 0 7200}
input=$old$'\n%\n'$same$'\n'
prints '' change - -
prints '' change --hex - -
# a serial that isn't greater becomes the one after the old one's, also round the ring
other=${old/192.0.2.10/192.0.2.12}
input=$old$'\n%\n'$other$'\n'
change="- web.example.test. 3600 IN A 192.0.2.10"
prints "- $soa 1 $rest"$'\n'"$change"$'\n'"+ $soa 2 $rest"$'\n'"+ web.example.test. 3600 IN A 192.0.2.12" change - -
input=${old/ 1 7200/ 4294967295 7200}$'\n%\n'${other/ 1 7200/ 4294967295 7200}$'\n'
prints "- $soa 4294967295 $rest"$'\n'"$change"$'\n'"+ $soa 0 $rest"$'\n'"+ web.example.test. 3600 IN A 192.0.2.12" change - -
# a record whose TTL alone changed goes and comes
other=${old/web 3600/web 60}
input=$old$'\n%\n'$other$'\n'
prints "- $soa 1 $rest"$'\n'"$change"$'\n'"+ $soa 2 $rest"$'\n'"+ web.example.test. 60 IN A 192.0.2.10" change - -
# the NS of the apex change in whole: the new one is added before the old one is deleted, since the last one can't be (RFC 2136, 3.4.2.4)
other=${old/IN NS ns1/IN NS web}
input=$old$'\n%\n'$other$'\n'
ns="example.test. 3600 IN NS"
prints "- $soa 1 $rest"$'\n'"- $ns ns1.example.test."$'\n'"+ $soa 2 $rest"$'\n'"+ $ns web.example.test." change - -
tries change --hex - -
message=$said
# who asks for the NS after it gets the new one, whose data are a name in full or by pointers
input=$old$'\n%\n'$message'123401000001000000000000076578616d706c6504746573740000020001'$'\n'
spans '*' $'0000a8000000000000000000\n12348500000100010000000?*03776562c00c*' answer -

# refused: another name, a text that is no zone, a command without its words
input=$old$'\n%\n'${old/example.test./example.com.}$'\n'
says 1 'error: the zones have different names' change - -
input=$old$'\n%\n'
refuses 1 'line 0: M11 Apex' change - -
row 2 NEW change -
row 2 OLD change
