mod; DD.MM.YYYY; HH:MM:SS; free
src; "Desk"; "01.02.2024"; "06:00:00"
chs; "ISO8859-1"
ver; "1"
ifv; "1.0"
tbl; MENGE_BASIS_VERSIONEN
atr; BASIS_VERSION_TEXT; BASIS_VERSION
frm; char[40]; num[9.0]
rec; "Winter"; 7
end; 1
tbl; MENGE_TAGESART
atr; TAGESART_TEXT; BASIS_VERSION; TAGESART_NR
frm; char[40]; num[9.0]; num[3.0]
rec; "a"; 7; 1
end; 1
tbl; FIRMENKALENDER
atr; TAGESART_NR; BETRIEBSTAG_TEXT; BETRIEBSTAG; BASIS_VERSION
frm; num[3.0]; char[40]; num[8.0]; num[9.0]
rec; 1; ""; 20240101; 7
rec; 7; ""; 20240102; 7
end; 2
eof; 3
