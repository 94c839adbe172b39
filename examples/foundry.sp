* The cards of wide.lib as a foundry would send them: keys in any order, the longer ones over several lines.
.model npn1r npn level=504 is=5.1e-18 ik=12e-3 bf=140
+ xibi=.18 ibf=0.4e-15 mlf=2. bri=4 iss=9e-18 icss=9e-18
* the thermal voltage times ln 2, in nanovolts
+ iks=60e-6 octave=17808740 ibr=0.25e-15

* four of them, with a lower resistance in the emitter
.model npn4r npn octave=17808740 mult=4 is=5.1e-18 ik=12e-3 bf=140 xibi=.18 ibf=0.4e-15 bri=4
+ iss=9e-18 icss=9e-18 iks=60e-6 ibr=0.25e-15 re=0.1e-3
.model pnp4r pnp octave=17808740 mult=4 is=5.1e-18 ik=12e-3 bf=140 xibi=.18 ibf=0.4e-15 bri=4
+ iss=9e-18 icss=9e-18 iks=60e-6 ibr=0.25e-15 re=0.1e-3
