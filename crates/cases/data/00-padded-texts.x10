mod; DD.MM.YYYY; HH:MM:SS; free
src; "Desk"; "01.02.2024"; "06:00:00"
chs; "ISO8859-1"
ver; "1"
ifv; "1.0"
tbl; MENGE_BASIS_VERSIONEN
atr; BASIS_VERSION; BASIS_VERSION_TEXT
frm; num[9.0]; char[40]
rec; 7; "Winter          "
rec; 8; "                "
end; 2
tbl; MENGE_TAGESART
atr; BASIS_VERSION; TAGESART_NR; TAGESART_TEXT
frm; num[9.0]; num[3.0]; char[40]
com; "SUGGESTED 3"
rec; 7; 1; "Schultag        "
rec; 7; 2; "sog. ""frei""    "
end; 2
tbl; FIRMENKALENDER
atr; BASIS_VERSION; BETRIEBSTAG; BETRIEBSTAG_TEXT; TAGESART_NR
frm; num[9.0]; num[8.0]; char[40]; num[3.0]
rec; 7; 20240101; "Neujahr "; 2
rec; 7; 20240102; "  "; 1
end; 2
tbl; MENGE_ONR_TYP
atr; BASIS_VERSION; ONR_TYP_NR; STR_ONR_TYP; ONR_TYP_TEXT
frm; num[9.0]; num[2.0]; char[6]; char[40]
rec; 7; 1; "HP    "; "Haltepunkt      "
rec; 7; 2; "BHOF  "; "                "
end; 2
tbl; MENGE_FAHRTART
atr; BASIS_VERSION; FAHRTART_NR; STR_FAHRTART
frm; num[9.0]; num[2.0]; char[6]
rec; 7; 1; "NORMAL      "
rec; 7; 2; "            "
end; 2
eof; 5
