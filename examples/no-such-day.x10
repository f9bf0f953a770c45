mod; DD.MM.YYYY; HH:MM:SS; free
src; "Planungsbuero Muehlental"; "12.01.2023"; "08:15:00"
chs; "ISO8859-1"
ver; "6.3.1"
ifv; "1.6"
com; "Betriebskalender, Wechsel in den Maerz"
tbl; MENGE_BASIS_VERSIONEN
atr; BASIS_VERSION; BASIS_VERSION_TEXT
frm; num[9.0]; char[40]
rec; 42; "Winterfahrplan 2022/23"
end; 1
tbl; BASIS_VER_GUELTIGKEIT
atr; VER_GUELTIGKEIT; BASIS_VERSION
frm; num[8.0]; num[9.0]
rec; 20221211; 42
end; 1
tbl; MENGE_TAGESART
atr; BASIS_VERSION; TAGESART_NR; TAGESART_TEXT
frm; num[9.0]; num[3.0]; char[40]
rec; 42; 1; "Schultag"
rec; 42; 3; "Samstag"
rec; 42; 4; "Sonn- und Feiertag"
end; 3
tbl; FIRMENKALENDER
atr; BASIS_VERSION; BETRIEBSTAG; BETRIEBSTAG_TEXT; TAGESART_NR
frm; num[9.0]; num[8.0]; char[40]; num[3.0]
rec; 42; 20230227; "Montag"; 1
rec; 42; 20230228; "Dienstag"; 1
rec; 42; 20230231; "Mittwoch"; 1
rec; 42; 20230301; "Donnerstag"; 1
rec; 42; 20230302; "Freitag"; 1
rec; 42; 20230303; "Samstag"; 3
rec; 42; 20230304; "Sonntag"; 4
end; 7
eof; 4
