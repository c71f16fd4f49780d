           MOVE A00 TO B00.
           MOVE A01 TO B01.
           MOVE A02 TO B02.
           MOVE A03 TO B03.
           MOVE A04 TO B04.
