* Level-1 transistors of the size of a 0.35 um process at 3.3 V. The values are from textbooks, not from a foundry.
.model nfet nmos level=1 vto=0.5 kp=170u gamma=0.45 phi=0.8 lambda=0.05 tox=7.6n cgso=0.2n cgdo=0.2n cj=0.9m mj=0.36 cjsw=0.2n
.model pfet pmos level=1 vto=-0.6 kp=58u gamma=0.45 phi=0.8 lambda=0.08 tox=7.6n cgso=0.2n cgdo=0.2n cj=1.4m mj=0.5 cjsw=0.3n
