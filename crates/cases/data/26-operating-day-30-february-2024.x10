mod; DD.MM.YYYY; HH:MM:SS; free
src; "Desk"; "01.02.2024"; "06:00:00"
chs; "ISO8859-1"
ver; "1"
ifv; "1.0"
tbl; MENGE_BASIS_VERSIONEN
atr; BASIS_VERSION; BASIS_VERSION_TEXT
frm; num[9.0]; char[40]
rec; 7; "Winter"
end; 1
tbl; MENGE_TAGESART
atr; BASIS_VERSION; TAGESART_NR; TAGESART_TEXT
frm; num[9.0]; num[3.0]; char[40]
rec; 7; 1; "Schultag"
end; 1
tbl; FIRMENKALENDER
atr; BASIS_VERSION; BETRIEBSTAG; BETRIEBSTAG_TEXT; TAGESART_NR
frm; num[9.0]; num[8.0]; char[40]; num[3.0]
rec; 7; 20240230; ""; 1
end; 1
eof; 3
