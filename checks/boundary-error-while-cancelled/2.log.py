# prints the excerpts of the log
def ended(first, last):
    """Tasks are called off with their jobs, from the newest on; these are the keys of the first one and the last one."""
    for key in range(first, last - 1, -2):
        print(f"EVENT PROCESS_INSTANCE ELEMENT_TERMINATING element=#{key}")
        print(f"EVENT JOB CANCELED job=#{key + 1}")
        print(f"EVENT PROCESS_INSTANCE ELEMENT_TERMINATED element=#{key}")


print("""\
# the cancel has no room for it
COMMAND PROCESS_INSTANCE CANCEL at=0 begin=4 accepted=1024 instance=#3
EVENT PROCESS_INSTANCE ELEMENT_TERMINATING element=#3
EVENT PROCESS_INSTANCE ELEMENT_TERMINATING element=#805
EVENT JOB CANCELED job=#806
EVENT PROCESS_INSTANCE ELEMENT_TERMINATED element=#805
EVENT PROCESS_INSTANCE ELEMENT_TERMINATING element=#803
EVENT JOB CANCELED job=#804
EVENT PROCESS_INSTANCE ELEMENT_TERMINATED element=#803

# nothing catches the error
COMMAND JOB THROW_ERROR at=0 begin=5 accepted=180 job=#8 code=E
EVENT JOB ERROR_THROWN job=#8 code=E""")
ended(123, 9)
print("""\
EVENT PROCESS_INSTANCE ELEMENT_TERMINATING element=#7
EVENT PROCESS_INSTANCE ELEMENT_TERMINATED element=#7
EVENT PROCESS_INSTANCE ELEMENT_TERMINATING element=#5
EVENT PROCESS_INSTANCE ELEMENT_TERMINATED element=#5
EVENT PROCESS_INSTANCE ELEMENT_TERMINATED element=#3""")
