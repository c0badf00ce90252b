"""The parts of tools/mel/debug.py, a debug adapter over `meldesk steps`: what the protocol carries (`wire`), where a play stands (`walk`), what
its bytes are called (`expressions`, `views`), and what a client asks (`adapter`). Python 3.9 and its standard library alone."""
