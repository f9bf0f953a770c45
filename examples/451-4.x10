mod; DD.MM.YYYY; HH:MM:SS; free
src; "PROLIO, TransTeC-systeme, 1998"; "06.07.1998"; "10:03:34"
chs; "ISO8859-1"
ver; "1.0.3-RDB"
ifv; "1.0"
dve; "1.5"
fft; "LIO"
tbl; MENGE_ONR_TYP
atr; BASIS_VERSION; ONR_TYP_NR; STR_ONR_TYP; ONR_TYP_TEXT
frm; num[9.0]; num[2.0]; char[8]; char[32]
rec; 611; 1; "HP"; "Haltepunkt"
rec; 611; 2; "BHOF"; "Betriebshofpunkt"
rec; 611; 3; "OM"; "Ortsmarke"
rec; 611; 4; "LSA"; "LSA-Punkt"
end; 4
tbl; MENGE_BASIS_VERSIONEN
atr; BASIS_VERSION; BASIS_VERSION_TEXT
frm; num[9.0]; char[40]
rec; 611; "PROLIO 1998"
end; 1
eof; 2
