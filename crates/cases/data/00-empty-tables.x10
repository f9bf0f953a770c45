mod; DD.MM.YYYY; HH:MM:SS; free
src; "Desk"; "01.02.2024"; "06:00:00"
chs; "ISO8859-1"
ver; "1"
ifv; "1.0"
tbl; MENGE_BASIS_VERSIONEN
atr; BASIS_VERSION; BASIS_VERSION_TEXT
frm; num[9.0]; char[40]
end; 0
tbl; BASIS_VER_GUELTIGKEIT
atr; VER_GUELTIGKEIT; BASIS_VERSION
frm; num[8.0]; num[9.0]
end; 0
tbl; FIRMENKALENDER
atr; BASIS_VERSION; BETRIEBSTAG; BETRIEBSTAG_TEXT; TAGESART_NR
frm; num[9.0]; num[8.0]; char[40]; num[3.0]
end; 0
tbl; MENGE_TAGESART
atr; BASIS_VERSION; TAGESART_NR; TAGESART_TEXT
frm; num[9.0]; num[3.0]; char[40]
end; 0
tbl; MENGE_ONR_TYP
atr; BASIS_VERSION; ONR_TYP_NR; STR_ONR_TYP; ONR_TYP_TEXT
frm; num[9.0]; num[2.0]; char[6]; char[40]
end; 0
tbl; MENGE_FAHRTART
atr; BASIS_VERSION; FAHRTART_NR; STR_FAHRTART
frm; num[9.0]; num[2.0]; char[6]
end; 0
tbl; REC_UEB
atr; BASIS_VERSION; BEREICH_NR; ONR_TYP_NR; ORT_NR; UEB_ZIEL_TYP; UEB_ZIEL; UEB_LAENGE
frm; num[9.0]; num[3.0]; num[2.0]; num[6.0]; num[2.0]; num[6.0]; num[6.0]
end; 0
tbl; UEB_FZT
atr; BASIS_VERSION; BEREICH_NR; FGR_NR; ONR_TYP_NR; ORT_NR; UEB_ZIEL_TYP; UEB_ZIEL; UEB_FAHRZEIT
frm; num[9.0]; num[3.0]; num[9.0]; num[2.0]; num[6.0]; num[2.0]; num[6.0]; num[6.0]
end; 0
eof; 8
