mod; DD.MM.YYYY; HH:MM:SS; free
src; "Plan ""B"""; "31.12.9999"; "23:59:59"
chs; "ISO8859-1"
ver; "a;b"
ifv; """"
tbl; MENGE_BASIS_VERSIONEN
atr; BASIS_VERSION; BASIS_VERSION_TEXT
frm; num[9.0]; char[40]
rec; 7; "Winter"
end; 1
eof; 1
