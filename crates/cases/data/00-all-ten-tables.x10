mod; DD.MM.YYYY; HH:MM:SS; free
src; "Desk"; "01.02.2024"; "06:00:00"
chs; "ISO8859-1"
ver; "1"
ifv; "1.0"
tbl;MENGE_BASIS_VERSIONEN
atr;BASIS_VERSION;BASIS_VERSION_TEXT
frm;num[1.0];char[1]
rec;7;"Winter"
end;1
tbl;BASIS_VER_GUELTIGKEIT
atr;VER_GUELTIGKEIT;BASIS_VERSION
frm;num[8.0];num[1.0]
rec;20240101;7
end;1
tbl;FIRMENKALENDER
atr;BASIS_VERSION;BETRIEBSTAG;BETRIEBSTAG_TEXT;TAGESART_NR
frm;num[1.0];num[8.0];char[1];num[3.0]
rec;7;20240203;"";2
end;1
tbl;MENGE_TAGESART
atr;BASIS_VERSION;TAGESART_NR;TAGESART_TEXT
frm;num[1.0];num[3.0];char[1]
rec;7;2;"Samstag"
end;1
tbl;MENGE_ONR_TYP
atr;BASIS_VERSION;ONR_TYP_NR;STR_ONR_TYP;ONR_TYP_TEXT
frm;num[1.0];num[2.0];char[6];char[1]
rec;7;1;"HP";""
rec;7;2;"BP";""
end;2
tbl;MENGE_FAHRTART
atr;BASIS_VERSION;FAHRTART_NR;STR_FAHRTART
frm;num[1.0];num[2.0];char[6]
rec;7;1;"N"
end;1
tbl;REC_UEB
atr;BASIS_VERSION;BEREICH_NR;ONR_TYP_NR;ORT_NR;UEB_ZIEL_TYP;UEB_ZIEL;UEB_LAENGE
frm;num[1.0];num[3.0];num[2.0];num[6.0];num[2.0];num[6.0];num[6.0]
rec;7;0;1;5;2;5;800
end;1
tbl;UEB_FZT
atr;BASIS_VERSION;BEREICH_NR;FGR_NR;ONR_TYP_NR;ORT_NR;UEB_ZIEL_TYP;UEB_ZIEL;UEB_FAHRZEIT
frm;num[1.0];num[3.0];num[1.0];num[2.0];num[6.0];num[2.0];num[6.0];num[6.0]
rec;7;0;3;1;5;2;5;90
end;1
tbl;EINZELANSCHLUSS
atr;BASIS_VERSION;EINAN_NR;ANSCHLUSS_NAME;ANSCHLUSS_GRUPPE;LEITSTELLENKENNUNG;ZUB_LI_NR;ZUB_LI_RI_NR;ZUB_ORT_REF_ORT;ZUB_ONR_TYP_NR;ZUB_ORT_NR;VON_ORT_REF_ORT;LinienID;RichtungsID;ASBID;ABB_LI_NR;ABB_LI_RI_NR;ABB_ORT_REF_ORT;ABB_ONR_TYP_NR;ABB_ORT_NR;NACH_ORT_REF_ORT
frm;num[1.0];num[5.0];char[1];char[6];num[3.0];num[6.0];num[3.0];num[6.0];num[2.0];num[6.0];num[6.0];char[6];char[6];char[1];num[6.0];num[3.0];num[6.0];num[2.0];num[6.0];num[6.0]
rec;7;1;"Bahnhof";"A";0;3;0;12;;;;"";"";"";5;1;9;;;
rec;7;2;"";"";255;0;0;0;;;;"S1";"R";"Hbf";5;1;9;;;
end;2
tbl;REC_UMS
atr;BASIS_VERSION;EINAN_NR;TAGESART_NR;UMS_BEGINN;UMS_ENDE;UMS_MIN;UMS_MAX;MAX_VERZ_MAN;MAX_VERZ_AUTO
frm;num[1.0];num[5.0];num[3.0];num[6.0];num[6.0];num[5.0];num[5.0];num[5.0];num[5.0]
rec;7;1;2;0;129599;0;300;60;0
end;1
eof; 10
