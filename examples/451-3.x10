mod; DD.MM.YYYY; HH:MM:SS; aligned
src; " EPON -> LIO Schnittstelle "; "17.02.1998"; "11:05:43"
chs; "ISO8859-1"
ver; "V15.0-15"
ifv; "V4.0"
dve; "1.0"
fft; "LIO"
com;
tbl; MENGE_ONR_TYP
atr; BASIS_VERSION; ONR_TYP_NR; STR_ONR_TYP; ONR_TYP_TEXT
frm; num[9.0]; num[2.0]; char[8]; char[32]
rec;      1;  1; "HP"      ; "Haltepunkt"
rec;      1;  2; "BHOF"    ; "Betriebshof"
rec;      1;  3; "OM"      ; "Ortsmarke"
rec;      1;  4; "LSA"     ; "Lichtsignalanlage"
com;
end; 4
tbl; MENGE_BASIS_VERSIONEN
atr; BASIS_VERSION; BASIS_VERSION_TEXT
frm; num[9.0]; char[40]
rec;      1; "EPON"
com;
end; 1
eof; 2
