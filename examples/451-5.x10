mod; YYYY/MM/DD; HH:MM:SS; aligned
src; "HOT II"; "1998/05/29"; "16:20:10"
chs; "ISO8859-1"
ver; "%I%a %G% / %I%a %G%"
ifv; "V1.0"
dve; "V0.1"
fft; "LIO"
tbl; MENGE_ONR_TYP
atr; BASIS_VERSION; ONR_TYP_NR; STR_ONR_TYP; ONR_TYP_TEXT
frm; num[9.0]; num[2.0]; char[8]; char[32]
rec; 10; 1; "HP"; "Haltepunkt"
rec; 10; 2; "BHOF"; "Betriebshofpunkt"
rec; 10; 3; "OM"; "Ortsmarke"
rec; 10; 4; "LSA"; "LSA-Punkt"
end; 4
tbl; MENGE_BASIS_VERSIONEN
atr; BASIS_VERSION; BASIS_VERSION_TEXT
frm; num[9.0]; char[40]
rec; 10; "HOT II"
end; 1
eof; 2
