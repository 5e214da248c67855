; LSC8, a line scanner card: eight lines, a Z80, 2K of ROM at 0000, 1K of RAM at 4000.
;
; A row has its address, its bytes, perhaps a label, and its text. Names are written small. With numbers in place of
; the names, an instruction's text is what the decoder says of its bytes, and all numbers are hex as they are there; a
; label stands for its address, in RST for the low byte, in JR and DJNZ for the way to it from the row's own address.
; DEFB (bytes), DEFW (words, low byte first) and DEFM (letters) are data. An ENTRY is a place where the processor or a
; register jump comes in; the map is checked from there.

records   = 4000   ; RAM: eight line records of four bytes, up to 401F
tick      = 4020   ; RAM: not 0 when a scan is due
failing   = 4021   ; RAM: not 0 when the supply is failing
stack     = 4400   ; end of the RAM; the stack grows down from it

lines     = 10     ; in: the loops of lines 0 to 7, a bit a line, 0 where a loop is closed
reports   = 11     ; out: a byte to the control processor
status    = 12     ; in: bit 0 is 1 when the control processor takes a byte
watch     = 13     ; out: 55 holds off the watchdog
ready     = 00     ; the bit of status

state     = 0      ; in a record: 0 idle, 1 busy, 2 blocked
flags     = 1      ; in a record: bits as below
settle    = 2      ; in a record: scans until a change counts
mask      = 3      ; in a record: the line's bit of port lines
changed   = 00     ; bit of flags: the state is to be reported
absent    = 07     ; bit of flags: no such line on this card
closed    = 07     ; bit of a report: the loop is closed

group     = 08     ; lines on a card
step      = 0004   ; bytes of a record
scans     = 04     ; scans that a change has to last
loaded    = 0022   ; bytes copied at the start: all records, tick, failing

ENTRY reset        ; power on
ENTRY clock        ; the interrupt, IM 1
ENTRY supply       ; the NMI
ENTRY idle         ; the three that JP HL goes to
ENTRY busy
ENTRY blocked

0000 31 00 44     reset:       LD SP, stack
0003 C3 6F 00                  JP start
0006 FF FF                     DEFB FF, FF           ; not used

; RST 08: IX to the next record. Alters DE.
0008 11 04 00     next:        LD DE, step
000B DD 19                     ADD IX, DE
000D C9                        RET
000E FF FF                     DEFB FF, FF           ; not used

; RST 10: hold off the watchdog. Alters A.
0010 3E 55        kick:        LD A, 55
0012 D3 13                     OUT (watch), A
0014 C9                        RET
0015 FF FF FF                  DEFB FF, FF, FF       ; not used

; RST 18: send A to the control processor, once it is ready.
0018 F5           send:        PUSH AF
0019 DB 12        send_wait:   IN A, (status)
001B CB 47                     BIT ready, A
001D 28 FA                     JR Z, send_wait
001F F1                        POP AF
0020 D3 11                     OUT (reports), A
0022 C9                        RET
0023 FF FF FF FF               DEFB FF, FF, FF, FF   ; not used
0027 FF                        DEFB FF

; RST 28: NZ where the loop of this line, in the scan C, is closed. Alters A.
0028 79           loop:        LD A, C
0029 DD A6 03                  AND (IX+mask)
002C C9                        RET
002D FF FF FF                  DEFB FF, FF, FF       ; not used

; The card's name and version.
0030 4C 53 43 38  version:     DEFM "LSC8"
0034 20 32 2E 33               DEFM " 2.3"

; The interrupt, every 8 ms: a scan is due.
0038 F5           clock:       PUSH AF
0039 3E 01                     LD A, 01
003B 32 20 40                  LD (tick), A
003E F1                        POP AF
003F FB                        EI
0040 ED 4D                     RETI

; What the RAM holds at the start: state, flags, settle, mask of each line; then tick and failing.
0042 00 00 04 01  first:       DEFB 00, 00, 04, 01   ; line 0
0046 00 00 04 02               DEFB 00, 00, 04, 02   ; line 1
004A 00 00 04 04               DEFB 00, 00, 04, 04   ; line 2
004E 00 00 04 08               DEFB 00, 00, 04, 08   ; line 3
0052 00 00 04 10               DEFB 00, 00, 04, 10   ; line 4
0056 00 00 04 20               DEFB 00, 00, 04, 20   ; line 5
005A 02 00 04 40               DEFB 02, 00, 04, 40   ; line 6, a trunk: blocked until its loop was seen open
005E 00 80 04 80               DEFB 00, 80, 04, 80   ; line 7: absent
0062 00 00                     DEFB 00, 00           ; tick, failing
0064 FF FF                     DEFB FF, FF           ; not used

; The NMI: the supply is failing.
0066 F5           supply:      PUSH AF
0067 3E 01                     LD A, 01
0069 32 21 40                  LD (failing), A
006C F1                        POP AF
006D ED 45                     RETN

; Start: load the RAM, then a scan for every tick.
006F ED 56        start:       IM 01
0071 21 42 00                  LD HL, first
0074 11 00 40                  LD DE, records
0077 01 22 00                  LD BC, loaded
007A ED B0                     LDIR
007C FB                        EI
007D 76           wait:        HALT                  ; until an interrupt
007E 3A 20 40                  LD A, (tick)
0081 B7                        OR A
0082 28 F9                     JR Z, wait            ; it was not the clock
0084 AF                        XOR A
0085 32 20 40                  LD (tick), A
0088 D7                        RST kick
0089 3A 21 40                  LD A, (failing)
008C B7                        OR A
008D C4 FE 00                  CALL NZ, alarm
0090 CD 96 00                  CALL scan
0093 C3 7D 00                  JP wait

; One scan: all loops are read at once, then each line is looked at.
0096 DD 21 00 40  scan:        LD IX, records
009A 06 08                     LD B, group
009C DB 10                     IN A, (lines)
009E 2F                        CPL                   ; now 1 where a loop is closed
009F 4F                        LD C, A
00A0 DD CB 01 7E  scan_line:   BIT absent, (IX+flags)
00A4 CC B2 00                  CALL Z, line
00A7 DD CB 01 46               BIT changed, (IX+flags)
00AB C4 E8 00                  CALL NZ, report
00AE CF                        RST next
00AF 10 EF                     DJNZ scan_line
00B1 C9                        RET

; One line: to the part for its state, with NZ where the loop is closed. Alters A, DE, HL.
00B2 DD 6E 00     line:        LD L, (IX+state)
00B5 26 00                     LD H, 00
00B7 29                        ADD HL, HL
00B8 11 C2 00                  LD DE, parts
00BB 19                        ADD HL, DE
00BC 5E                        LD E, (HL)
00BD 23                        INC HL
00BE 56                        LD D, (HL)
00BF EB                        EX DE, HL
00C0 EF                        RST loop
00C1 E9                        JP HL
00C2 CD 00        parts:       DEFW idle             ; state 0
00C4 D4 00                     DEFW busy             ; state 1
00C6 C8 00                     DEFW blocked          ; state 2

; Blocked: nothing counts until the loop is open; then the line is idle.
00C8 C0           blocked:     RET NZ
00C9 DD 36 00 00               LD (IX+state), 00

; Idle: a closed loop is a change.
00CD 20 07        idle:        JR NZ, change

; No change, or none any more.
00CF DD 36 02 04  steady:      LD (IX+settle), scans
00D3 C9                        RET

; Busy: an open loop is a change.
00D4 20 F9        busy:        JR NZ, steady
00D6 DD 35 02     change:      DEC (IX+settle)
00D9 C0                        RET NZ                ; it has not lasted yet
00DA DD 7E 00                  LD A, (IX+state)
00DD EE 01                     XOR 01                ; idle to busy, busy to idle
00DF DD 77 00                  LD (IX+state), A
00E2 DD CB 01 C6               SET changed, (IX+flags)
00E6 18 E7                     JR steady

; Report a line's new state: its number, and bit 7 where the loop is closed. If the control
; processor is not ready, the flag stands and the next scan comes here again. Alters A.
00E8 DB 12        report:      IN A, (status)
00EA CB 47                     BIT ready, A
00EC C8                        RET Z
00ED 3E 08                     LD A, group
00EF 90                        SUB B                 ; B counts down from group
00F0 DD CB 00 46               BIT 00, (IX+state)
00F4 28 02                     JR Z, report_send
00F6 CB FF                     SET closed, A
00F8 DF           report_send: RST send
00F9 DD CB 01 86               RES changed, (IX+flags)
00FD C9                        RET

; Report the failing supply.
00FE 3E F0        alarm:       LD A, F0
0100 DF                        RST send
0101 AF                        XOR A
0102 32 21 40                  LD (failing), A
0105 C9                        RET

; Makes the sum of all bytes a multiple of 256.
0106 D3           sum:         DEFB D3
