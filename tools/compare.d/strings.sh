# The byte strings that tools/compare tries: hex bytes, each with *N for a run of N. A pattern is matched with the first line of
# an answer: the word refused, or the bytes taken, the word read and the text in small letters.
# shellcheck shell=bash disable=SC2034

# Bytes to which a later processor gave a meaning; what an 8086 has there; the first answers that do not give the later one.
later='
0F A2 90 90       ; POP CS, one byte, or not used ; refused|1 read pop cs
0F 84 34 12       ; POP CS, one byte, or not used ; refused|1 read pop cs
60                ; not used                      ; refused
61                ; not used                      ; refused
62 07             ; not used                      ; refused
62 F1 7C 48 58 C1 ; not used                      ; refused
63 C3             ; not used                      ; refused
64 8B 07          ; not used                      ; refused
65 8B 07          ; not used                      ; refused
66 8B 07          ; not used                      ; refused
67 8B 07          ; not used                      ; refused
68 34 12          ; not used                      ; refused
69 C3 34 12       ; not used                      ; refused
6A 05             ; not used                      ; refused
6B C3 05          ; not used                      ; refused
6C                ; not used                      ; refused
6D                ; not used                      ; refused
6E                ; not used                      ; refused
6F                ; not used                      ; refused
8C E0             ; not used                      ; refused
8E E8             ; not used                      ; refused
C0 E0 04          ; not used                      ; refused
C1 E0 04          ; not used                      ; refused
C4 E1 78 58 C1    ; LES, mod 3 not used           ; refused|2 read les
C5 F8 58 C1       ; LDS, mod 3 not used           ; refused|2 read lds
C6 F8 05          ; MOV, reg 7 not used           ; refused|3 read mov
C7 F8 34 12       ; MOV, reg 7 not used           ; refused|4 read mov
C8 10 00 00       ; not used                      ; refused
C9                ; not used                      ; refused
F1                ; not used                      ; refused
F3 90             ; NOP behind a repeat           ; 2 read (rep[a-z]* )?(nop|xchg)|1 read rep
'

# Instructions of the 8086; how it reads them; the first answers that say so.
own='
89 D8             ; MOV AX, BX             ; 2 read mov ax, ?bx$
88 40 80          ; MOV [BX+SI-80], AL     ; 3 read mov .*bx ?\+ ?si(\*1)? ?- ?(0x)?80\], ?al$
A1 34 12          ; MOV AX, [1234]         ; 3 read mov ax, ?.*1234\]?$
8E D8             ; MOV DS, AX             ; 2 read mov ds, ?ax$
CD 21             ; INT 21                 ; 2 read int (0x)?21$
F3 A4             ; REP MOVSB              ; 2 read repe? movs
EA 78 56 34 12    ; JMP 1234:5678          ; 5 read l?jmp (far )?(0x)?1234 ?[:,] ?(0x)?5678$
75 F8             ; JNE FFFA               ; 2 read jn[ez] (0x)?fffa$
83 C0 FF          ; ADD AX, FFFF           ; 3 read add ax, ?(byte )?((0x)?ffff|-(0x)?0*1)$
8B 46 02          ; MOV AX, SS:[BP+02]     ; 3 read mov ax, ?(word )?(ptr )?(ss:)?\[(ss:)?bp ?\+ ?(0x)?0*2\]$
D3 E0             ; SHL AX, CL             ; 2 read s[ha]l ax, ?cl$
C2 04 00          ; RET 0004               ; 3 read ret[nw]? (0x)?0*4$
CB                ; RET between segments   ; 1 read (retf|lret|ret far)
FF 1F             ; CALL between segments  ; 2 read (lcall|call far|call dword)
D8 46 02          ; ESC, three bytes       ; 3 read (fadd|esc)
26 A4             ; MOVSB from ES:[SI]     ; 2 read es movsb|2 read (es )?movsb?.*, ?(byte ptr )?es:\[si\]
26 D7             ; XLAT from ES:[BX]      ; 2 read es xlatb?|2 read (es )?xlatb?.* es:\[bx
F0 FF 07          ; LOCK INC [BX]          ; 3 read lock inc|1 read lock$
'

# Encodings that the manual leaves unused or does not settle.
open='
0F
8D C0
C4 C0
C5 C0
8E C8
8C F0
8E F8
82 C8 05
C6 C8 05
D0 F0
D4 07
D6
F6 C8
FE D0
FF F8
26 2E 8B 07
F3 8B C3
'

# Runs of prefixes, of which the first three strings are in the first table; inputs that end early; a refusal before two NOPs.
edges='
26*15 8B 07
26*16 8B 07
26*255 8B 07
26
F3
8B
8B 47
81 80 34 12 78
8F C8 90 90
'

# Whole inputs: what each is, and the bytes; the two images are files already.
inputs='
empty                        ;
8B                           ; 8B
26                           ; 26
F3                           ; F3
255 of 26, then 8B 07        ; 26*255 8B 07
65,536 of 26                 ; 26*65536
131,072 of 26                ; 26*131072
65,536 of 90                 ; 90*65536
65,537 of 90                 ; 90*65537
pseudo-random, 65,536 bytes  ; random
the image                    ; image
'
