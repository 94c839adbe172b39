.model a npn octave=16000000
.model a npn octave=16000000 bf=x
