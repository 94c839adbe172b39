.model a npn octave=16000000
.model b npn octave=16000000
* between
.model a npn
+octave=16000000
