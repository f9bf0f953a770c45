mod; DD.MM.YYYY; HH:MM:SS; aligned
src; "MFS-90"; "16.12.1997"; "14:33:07"
chs; "ISO8859-1"
ver; "V1.0"
ifv; "1.0"
dve; "1.0"
fft; "LIO"
tbl; MENGE_ONR_TYP
atr; BASIS_VERSION; ONR_TYP_NR; STR_ONR_TYP; ONR_TYP_TEXT
frm; num[10.0]; num[10.0]; char[8]; char[32]
rec; 1; 1; "HP "; "Haltepunkt"
rec; 1; 2; "BHOF"; "Betriebshofpunkt"
rec; 1; 3; "OM "; "Ortsmarke"
rec; 1; 4; "LSA "; "LSA-Punkt"
end; 0004
tbl; MENGE_BASIS_VERSIONEN
atr; BASIS_VERSION; BASIS_VERSION_TEXT
frm; num[10.0]; char[40]
rec; 1; "MFS-90"
end; 0001
eof; 2
