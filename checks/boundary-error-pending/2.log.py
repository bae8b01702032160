# prints the excerpts of the log
def ended(first, last):
    """Tasks are called off with their jobs, from the newest on; these are the keys of the first one and the last one."""
    for key in range(first, last - 1, -2):
        print(f"EVENT PROCESS_INSTANCE ELEMENT_TERMINATING element=#{key}")
        print(f"EVENT JOB CANCELED job=#{key + 1}")
        print(f"EVENT PROCESS_INSTANCE ELEMENT_TERMINATED element=#{key}")


print("""\
# its batch is full before it is caught
COMMAND JOB THROW_ERROR at=1000 begin=6 accepted=1024 job=#6 code=E
EVENT JOB ERROR_THROWN job=#6 code=E
EVENT PROCESS_INSTANCE ELEMENT_TERMINATED element=#729""")
ended(727, 49)
print("""\
EVENT PROCESS_INSTANCE ELEMENT_TERMINATING element=#47
EVENT JOB CANCELED job=#48
END""")
