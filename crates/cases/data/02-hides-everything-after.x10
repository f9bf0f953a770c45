mod; DD.MM.YYYY; HH:MM:SS; free
src; "Desk"; "01.02.2024"; "06:00:00"
chs; "ISO"
ver; "1"
ifv; "1.0"
tbl; X
rec
