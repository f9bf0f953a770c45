mod; DD.MM.YYYY; HH:MM:SS; free
src; "Desk"; "01.02.2024"; "06:00:00"
chs; "ISO8859-1"
ver; "1"
ifv; "1.0"
tbl; MENGE_BASIS_VERSIONEN
atr; BASIS_VERSION; BASIS_VERSION_TEXT
frm; num[9.0]; char[40]
rec; 7; "Winter"
rec; 8; ""
end; 2
tbl; MENGE_TAGESART
atr; BASIS_VERSION; TAGESART_NR; TAGESART_TEXT
frm; num[9.0]; num[3.0]; char[40]
rec; 7; 2; "Samstag"
rec; 8; 2; ""
end; 2
tbl; EINZELANSCHLUSS
atr; NACH_ORT_REF_ORT; ABB_ORT_NR; ABB_ONR_TYP_NR; ABB_ORT_REF_ORT; ABB_LI_RI_NR; ABB_LI_NR; ASBID; RichtungsID; LinienID; VON_ORT_REF_ORT; ZUB_ORT_NR; ZUB_ONR_TYP_NR; ZUB_ORT_REF_ORT; ZUB_LI_RI_NR; ZUB_LI_NR; LEITSTELLENKENNUNG; ANSCHLUSS_GRUPPE; ANSCHLUSS_NAME; EINAN_NR; BASIS_VERSION
frm; num[6.0]; num[6.0]; num[2.0]; num[6.0]; num[3.0]; num[6.0]; char[10]; char[6]; char[6]; num[6.0]; num[6.0]; num[2.0]; num[6.0]; num[3.0]; num[6.0]; num[3.0]; char[6]; char[40]; num[5.0]; num[9.0]
rec; ; ; ; 9; 1; 5; "Hbf"; ""; ""; ; ; ; 12; 0; 3; 0; "A"; "Bahnhof"; 1; 7
end; 1
tbl; REC_UMS
atr; BASIS_VERSION; EINAN_NR; TAGESART_NR; UMS_BEGINN; UMS_ENDE; UMS_MIN; UMS_MAX; MAX_VERZ_MAN; MAX_VERZ_AUTO
frm; num[9.0]; num[5.0]; num[3.0]; num[6.0]; num[6.0]; num[5.0]; num[5.0]; num[5.0]; num[5.0]
end; 0
eof; 4
