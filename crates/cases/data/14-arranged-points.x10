mod; DD.MM.YYYY; HH:MM:SS; free
src; "Desk"; "01.02.2024"; "06:00:00"
chs; "ISO8859-1"
ver; "1"
ifv; "1.0"
tbl; MENGE_BASIS_VERSIONEN
atr; BASIS_VERSION; BASIS_VERSION_TEXT
frm; num[9.0]; char[40]
rec; 7; "Winter"
end; 1
tbl; MENGE_ONR_TYP
atr; STR_ONR_TYP; ONR_TYP_TEXT; ONR_TYP_NR; BASIS_VERSION
frm; char[6]; char[40]; num[2.0]; num[9.0]
rec; "HP"; "Haltepunkt"; 1; 7
com; "SUGGESTED 2"
rec; "BHOF"; "Betriebshof"; 2; 7
end; 2
tbl; REC_UEB
atr; UEB_ZIEL; ORT_NR; UEB_LAENGE; UEB_ZIEL_TYP; ONR_TYP_NR; BEREICH_NR; BASIS_VERSION
frm; num[6.0]; num[6.0]; num[6.0]; num[2.0]; num[2.0]; num[3.0]; num[9.0]
rec; 9; 5; 812; 1; 1; 3; 7
rec; 5; 5; 812; 1; 1; 3; 7
end; 2
eof; 3
