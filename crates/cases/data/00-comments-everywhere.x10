com; first
mod; DD.MM.YYYY; HH:MM:SS; free
com;
src; "Desk"; "01.02.2024"; "06:00:00"
chs; "ISO8859-1"
com; a;b;c
ver; "1"
ifv; "1.0"
com; "SUGGESTED 9"
tbl; MENGE_BASIS_VERSIONEN
com; one
atr; BASIS_VERSION; BASIS_VERSION_TEXT
com; "two"
frm; num[9.0]; char[40]
com; three
rec; 7; "Winter"
com; four
end; 1
com; five
eof; 1
