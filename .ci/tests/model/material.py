"""What random scripts are made of: texts of fields, good and bad, lines that are no events, and weights of lines."""
from .fields import MAX32, MAX64

# Canonical key expressions: few chunks, so that they meet often, and all kinds of wild signs.
KEYS = r"""
a b a/b a/c a/b/c a/* a/** */b ** * a$* a/b$* a/$*b **/b a/**/b @v @v/x a/@v @v/** @v/* ab aab a$*b a$*b$* $*b a/*/c a/*/** */* */** **/@v
a/@v/b a/**/@v é é$* é/* a/b/** b/** **/c a/b/* abab a$*a$*b @$* **/a/** */**/b a=b a/b/c/d @v/x/@w 日本/* 日$* fifo:1 enc=x s1:a put 1 @ @/a a/@
$*@v $*v $*a$* a$*/b$* */a$* **/a$*b/** */*/* */*/** **/@v/** @v/$*x @v/x$* b$*a ba bba a/a/b a/b/a/b */b/**/b
""".split() + ['x y', 'a\rb', 'a\x00', '\u2028/a', 'a\u0301', '\x85']
USUAL_KEYS = ['a', 'a/b', 'a/*', 'a/**', '**', '*/b', 'a/c']
BAD_KEYS = r"""
/ a//b a/ /a a/**/** a/**/* a/$* $* $*$* a$*$*b a* **a a# #x # $ a$ #01 #65536 #1x a?b *** a/b* *a/b #-1 a/**/*/$* $a @v/**/** #00 #1;
#99999999999 a/? *$* $** a$**
""".split() + ['', '#1 ']
SUFFIXES = ['', '/b', '/c', 'b', '/*', '/**', '/@v', '/b/c', '$*', '/b$*']
BAD_SUFFIXES = ['//', '/', '*', '**', '/**/**', '?', '#', '/a?x', '/$*', '$']
AGGREGATES = 'a/** a/* ** a/b/** */b a$* @v/** a/b * a/**/b é/** **/c */** a a/$*b'.split()

ENCODINGS = ['text/plain', 'zenoh/bytes', 'zenoh/string', '', 'a;b', 'application/json', 'e=x', 'é', 'text/plain;utf-8', ' ', 'x\r', '\x0b', '\u2028',
             '\x85', 'enc=']
PAYLOADS = 'x x00 x01 x02 x03 xff xAB x7a656e6f68 x0102030405060708 xaBcD x0a x09'.split()
PARAMETERS = """
_time _anyke x=1 _time=[now()] _anyke=1 ;; =;x x=1;;y=;_anyke;=| | x?y _anyke; a=b;_anyke=|= _time;x=| _anyke| x=1|_anyke x=1;y;x=2 = ; =_anyke
_anyke;_anyke=2;z x=a=b _Time _time=; |_anyke =1;_anyke;=2 x;;y x=1;;; ;x #1 é=é =;_time;= x==|;|
""".split() + ['', ' _time', '_anyke ;x']
WIDEST = 'f' * 32
CHANNELS = 'fifo:1 fifo:1 fifo:2 fifo:3 ring:1 ring:2 ring:2 ring:3 fifo:256 fifo:65535 ring:65535 print'.split()

# Words of settings, and how often each stands there.
SETTINGS = [
    ('zid', 0.25, ['7', 'ff', '3', WIDEST, 'a1B', '1', '10']),
    ('tag', 0.15, [0, 1, 5, MAX64]),
    ('entity', 0.25, [0, 1, 10, 100, MAX32 - 1, MAX32 - 3, MAX32 - 6, MAX32 - 8, MAX32 - 12]),
    ('key', 0.25, [1, 2, 10, 300, 65530, 65533, 65534, 65535]),
    ('query', 0.25, [0, 1, 7, 50, MAX32, MAX32 - 1, MAX32 - 3, MAX32 - 8]),
    ('timeout', 0.35, [0, 1, 2, 5, 10, 30, 100, MAX64, MAX64 - 3]),
    ('line', 0.04, [1, 9, 20, 30, 40, 60, 65536, 2 ** 20]),
]
BAD_WORDS = """
zid=0 zid= zid=01 zid=g entity=4294967295 entity=4294967296 key=0 key=65536 query=4294967296 line=0 line=1048577 turns=0 aggsub=a//b aggpub=
aggsub=#1 x=1 timeout tag=-1 tag=18446744073709551616 entity=01 drive link zid=1 tag=1 soak timeout=1 line=+5 turns=18446744073709551615
turns=18446744073709551616 zid=+1 zid=0x1 ZID=1 aggsub aggsub=a? line=٣
""".split() + [' ', '', 'key= 1', 'zid=' + '1' * 33]

# Lines that are no events; `|` is a tab.
BAD_LINES = [line.replace('|', '\t') for line in """

putt|any|k|x
put|any|k|x0
put|any|k
put|any|k|01
put|any|k|X01
put|any|k|x0g
put||any|k|x01
put|any|k|x01|
put any k x01
put|any|k|x01|prio=0
put|any|k|x01|prio=8
put|any|k|x01|prio=05
put|any|k|x01|prio=
put|any|k|x01|prio=1|prio=1
put|any|k|x01|prio=5|enc=a
put|any|k|x01|cc=Drop
put|any|k|x01|express=2
put|any|k|x01|express=true
put|any|k|x01|ts=1
put|any|k|x01|ts=1:01
put|any|k|x01|ts=:1
put|any|k|x01|ts=1:
put|any|k|x01|ts=1:1:1
put|any|k|x01|ts=18446744073709551616:1
put|any|k|x01|src=1:1
put|any|k|x01|src=1:1:1:1
put|any|k|x01|src=1:4294967296:1
put|any|k|x01|att=
put|any|k|x01|att=01
put|any|k|x01|enc=a|enc=b
put|any|k|x01|foo=1
put|any|k|x01|enc
put|any|k|x01|ENC=a
delete|any|k|enc=a
delete|any|k|x01
pput|2
pput|2|x01|prio=1
pdel|2|x01
pub|any|k|ts=1:1
sub|any|k|fifo:0
sub|any|k|fifo:65536
sub|any|k|fifo:01
sub|any|k|ring:
sub|any|k|ring:٣
sub|any|k|fifo
sub|any|k|print:1
sub|any|k|print|print
sub|any|k|to=fifo:1
sub|any|k|
sub|ANY|k
sub|both|k
sub|any
lsub|any|k
lsub|k
queryable|any|k
queryable|complete|any|k
queryable|any|Complete|k
querier|any|k|rel=1
querier|any|k|accept=all
querier|any|k|accept=
querier|any|k|target=none
get|any
get|any|k|cons=
get|any|k|target=Best
get|any|k|timeout=-1
get|any|k|timeout=18446744073709551616
get|any|k|token=4294967296
get|any|k|to=fifo:0
get|any|k|to=print:
get|any|k|fifo:1
get|any|k|ts=1:1
get|any|k|params=x
qget|2|target=all
qget|2|cons=none
lget|k|payload=x
lget|any|k
reply|0|k
reply|0|k|x01|rel=1
replydel|0|k|x01
replyerr|0|x01|ts=1:1
replyerr|0|k|x01
share
finish|0|0
token
token|k|interest=1
key
key|a|b
undeclare
undeclare|key
undeclare|sub|02
undeclare|sub|4294967296
undeclare|sub|٣
undeclare|get|0
undeclare|listener
undeclare|queryable|2|
background|pub|2
background|token|2
background|querier|2
listen|sub|2
status|sub|2
recv|pub|2
recv|queryable|2
recv|sub
recv|sub|02
recv|get|4294967296
tick
tick|-1
tick|+1
tick|1|2
tick|01
tick|18446744073709551616
tick|٣
tick|1\x20
tick|\x201
close|x
close|
\x20close
close\x20
close\r
\ufeffclose
ctoken|0
cancel
cancel|4294967296
|put
|
a|put
net
net|
net|tick|1
net|recv
net|interest|1|final|none
net|interest|1|current|tokens|s0:a
net|keyexpr|1|a
net|keyexpr|1|t0:a
net|keyexpr|65536|s0:a
net|keyexpr|1|s65536:a
net|keyexpr|1|s01:a
net|keyexpr|1|s:a
net|keyexpr|1|s0a
net|keyexpr|1|S0:a
net|unkeyexpr|65536
net|sub|1|a
net|queryable|1|s0:a
net|token|1
net|token|1|s0:a|interest=4294967296
net|untoken|1|a
net|untoken|1|interest=1|s0:a
net|declarefinal|3
net|declarefinal|interest=01
net|declarefinal|interest=
net|push|s0:a
net|push|s0:a|del|x01
net|push|s0:a|err|x01
net|push|s0:a|put|x01|by=1:1
net|push|s0:a|put|x01|prio=8
net|request|1|s0:a|rel=1
net|response|1|s0:a|err|x01|ts=1:1
net|response|1|s0:a|put|x01|rel=1
net|response|1|s0:a|put|x01|by=1:1:1
net|responsefinal|1|x
net|close|x
""".split('\n')[1:-1]] + ['put\tany\tk\tx01\tts=1:' + 'f' * 33]
NOT_UTF8 = [b'\xff', b'\xc3', b'\xed\xa0\x80', b'\x80', b'\xc0\xaf', b'\xf5\x80\x80\x80']


def weights(text):
    """Words with their weights, of a text of `word=weight` pairs."""
    return {word: int(weight) for word, weight in (pair.split('=') for pair in text.split())}


# Which lines a script has many of, by what it is about; all other lines stand there too, with little weight.
PROFILES = {about: weights(text) for about, text in {
    'keys': """key=30 undeclare_key=18 sub=14 undeclare_sub=4 put=18 delete=6 net_keyexpr=14 net_unkeyexpr=4 net_push=20 pub=8 pput=6
        undeclare_pub=3 token=5 queryable=5 get=6 lsub=3 lget=3 reply=4""",
    'subscribers': 'sub=30 undeclare_sub=14 background_sub=5 put=30 delete=12 net_push=25 key=8 recv=6 net_keyexpr=4',
    'matching': """pub=14 listen=24 undeclare_listener=5 background_listener=5 status=14 sub=18 undeclare_sub=14 net_sub=22 net_unsub=12 pput=8
        pdel=4 undeclare_pub=6 querier=14 undeclare_querier=6 queryable=14 undeclare_queryable=10 net_queryable=18 net_unqueryable=10
        background_sub=3 background_queryable=3""",
    'local gets': """queryable=18 undeclare_queryable=4 background_queryable=3 get=28 reply=34 replydel=12 replyerr=10 share=10 finish=26 tick=4
        key=4 net_responsefinal=10 querier=4 qget=8""",
    'remote gets': 'get=24 net_response=50 net_responsefinal=18 tick=8 key=6 net_keyexpr=6 recv=4 queryable=5 finish=6 reply=6',
    'consolidation': 'get=14 net_response=55 net_responsefinal=7 tick=4 queryable=6 reply=25 replydel=10 finish=4',
    'queriers': """querier=22 undeclare_querier=10 qget=30 queryable=14 undeclare_queryable=3 reply=18 replydel=5 replyerr=4 finish=12
        net_response=18 net_responsefinal=10 tick=5 ctoken=3 cancel=3 key=6 listen=5 status=5 net_queryable=5""",
    'liveliness': """token=14 undeclare_token=10 lsub=20 undeclare_lsub=8 background_lsub=5 lget=22 net_token=34 net_untoken=24
        net_declarefinal=14 tick=6 recv=5 ctoken=3 cancel=3 key=5 net_keyexpr=5""",
    'queries': """queryable=16 undeclare_queryable=6 net_request=28 get=10 reply=28 replydel=12 replyerr=12 share=22 finish=34 net_keyexpr=4
        key=5""",
    'publishers': """pub=24 pput=30 pdel=16 undeclare_pub=8 sub=20 undeclare_sub=6 key=12 undeclare_key=8 listen=5 status=4
        background_sub=3""",
    'groups': """sub=30 undeclare_sub=26 pub=24 undeclare_pub=20 querier=18 undeclare_querier=14 key=8 undeclare_key=8 background_sub=4
        pput=4""",
    'channels': """sub=14 undeclare_sub=4 put=30 get=12 qget=5 querier=4 lget=12 net_response=50 net_responsefinal=6 net_token=22
        net_declarefinal=4 recv=60 tick=6 queryable=4 reply=6 finish=4 net_push=6 delete=4 cancel=2 ctoken=2""",
    'cancelling': """ctoken=14 cancel=16 get=24 lget=16 querier=8 qget=18 undeclare_querier=4 net_response=12 net_responsefinal=6 tick=4
        queryable=8 reply=8 finish=8 recv=4 net_declarefinal=4""",
    'mixed': '',
    'network': """net_keyexpr=12 net_unkeyexpr=5 net_sub=8 net_unsub=6 net_queryable=8 net_unqueryable=6 net_token=10 net_untoken=10
        net_declarefinal=5 net_push=14 net_request=14 net_response=14 net_responsefinal=8 net_close=3 sub=8 queryable=8 get=8 lget=5 lsub=5
        pub=5 listen=4 finish=5 reply=5""",
    'time': 'tick=40 get=24 lget=16 qget=10 querier=8 net_response=20 net_token=8 recv=5 queryable=5 reply=8',
}.items()}
LINES = """
key undeclare_key sub undeclare_sub background_sub lsub undeclare_lsub background_lsub pub undeclare_pub pput pdel put delete queryable
undeclare_queryable background_queryable querier undeclare_querier qget token undeclare_token listen undeclare_listener background_listener status
ctoken cancel get lget reply replydel replyerr share finish recv tick close net_keyexpr net_unkeyexpr net_sub net_unsub net_queryable
net_unqueryable net_token net_untoken net_declarefinal net_push net_request net_response net_responsefinal net_close
""".split()
