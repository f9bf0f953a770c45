mod; DD.MM.YYYY; HH:MM:SS; free
src; "Desk"; "01.02.2024"; "06:00:00"
chs; "ISO8859-1"
ver; "1"
ifv; "1.0"
tbl; REC_UEB
atr; BASIS_VERSION; BEREICH_NR; ONR_TYP_NR; ORT_NR; UEB_ZIEL_TYP; UEB_ZIEL; UEB_LAENGE
frm; num[9.0]; num[3.0]; num[2.0]; num[6.0]; num[2.0]; num[6.0]; num[6.0]
rec; 7; 0; 1; 5; 1; 5; 100
end; 2
eof; 1
