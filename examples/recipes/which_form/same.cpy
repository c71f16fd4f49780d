       01  REC-NEW.
           05  ID-NO       PIC X(4).
           05  PARTS       PIC 9.
           05  PART        PIC X(2) OCCURS 1 TO 3 DEPENDING ON PARTS.
