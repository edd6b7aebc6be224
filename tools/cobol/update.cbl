000100 IDENTIFICATION DIVISION.                                         ACCTUPD 
000200 PROGRAM-ID. ACCTUPD.                                             ACCTUPD 
000300***************************************************************** ACCTUPD 
000400* ACCTUPD adds a deposit to an account.                           ACCTUPD 
000500***************************************************************** ACCTUPD 
000600 ENVIRONMENT DIVISION.                                            ACCTUPD 
000700 DATA DIVISION.                                                   ACCTUPD 
000800 WORKING-STORAGE SECTION.                                         ACCTUPD 
000900 01  WS-RESP                  PIC S9(8) COMP.                     ACCTUPD 
001000 01  WS-ACCT-KEY              PIC X(4).                           ACCTUPD 
001100 01  WS-TEXT                  PIC X(30)                           ACCTUPD 
001200     VALUE 'EXEC CICS ABEND END-EXEC'.                            ACCTUPD 
001300 01  ACCT-RECORD.                                                 ACCTUPD 
001400     05  ACCT-NUMBER          PIC X(4).                           ACCTUPD 
001500     05  FILLER               PIC X.                              ACCTUPD 
001600     05  ACCT-BALANCE         PIC 9(5).                           ACCTUPD 
001700 LINKAGE SECTION.                                                 ACCTUPD 
001800 01  DFHCOMMAREA.                                                 ACCTUPD 
001900     05  CA-NUMBER            PIC X(4).                           ACCTUPD 
002000     05  CA-AMOUNT            PIC 9(5).                           ACCTUPD 
002100 PROCEDURE DIVISION.                                              ACCTUPD 
002200 0000-MAIN.                                                       ACCTUPD 
002300     MOVE CA-NUMBER TO WS-ACCT-KEY.                               ACCTUPD 
002400* Holds the account until the unit of work ends.                  ACCTUPD 
002500     EXEC CICS                                                    ACCTUPD 
002600         READ FILE('ACCT')                                        ACCTUPD 
002700              INTO(ACCT-RECORD)                                   ACCTUPD 
002800              LENGTH(LENGTH OF ACCT-RECORD)                       ACCTUPD 
002900              RIDFLD(WS-ACCT-KEY)                                 ACCTUPD 
003000              UPDATE                                              ACCTUPD 
003100              RESP(WS-RESP)                                       ACCTUPD 
003200     END-EXEC.                                                    ACCTUPD 
003300     IF WS-RESP NOT = DFHRESP(NORMAL)                             ACCTUPD 
003400         GO TO 9000-ABEND.                                        ACCTUPD 
003500     ADD CA-AMOUNT TO ACCT-BALANCE.                               ACCTUPD 
003600*                                                                 ACCTUPD 
003700 1000-REWRITE-ACCOUNT.                                            ACCTUPD 
003800     EXEC CICS                                                    ACCTUPD 
003900         REWRITE FILE('ACCT')                                     ACCTUPD 
004000                 FROM(ACCT-RECORD)                                ACCTUPD 
004100                 LENGTH(LENGTH OF ACCT-RECORD)                    ACCTUPD 
004200     END-EXEC.                                                    ACCTUPD 
004300     EXEC CICS RETURN END-EXEC.                                   ACCTUPD 
004400*                                                                 ACCTUPD 
004500 9000-ABEND.                                                      ACCTUPD 
004600     DISPLAY WS-TEXT.                                             ACCTUPD 
004700     EXEC CICS ABEND ABCODE('ACC1') NODUMP END-EXEC.              ACCTUPD 
