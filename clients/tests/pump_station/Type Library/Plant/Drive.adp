<?xml version="1.0" encoding="UTF-8"?>
<AdapterType Name="Drive" Comment="A frequency converter">
	<Identification Standard="61499-2"/>
	<VersionInfo Organization="Acme" Version="1.2" Author="P. Umper" Date="2026-10-01" Remarks="first delivery"/>
	<CompilerInfo packageName="acme::plant"></CompilerInfo>
	<InterfaceList>
		<EventInputs>
			<Event Name="STOPPED" Type="Event"/>
			<Event Name="TRIPPED" Type="Event"><With Var="Tripped"/></Event>
		</EventInputs>
		<EventOutputs>
			<Event Name="RUN" Type="Event"><With Var="Speed"/></Event>
			<Event Name="HALT" Type="Event"/>
		</EventOutputs>
		<InputVars>
			<VarDeclaration Name="Tripped" Type="BOOL"/>
		</InputVars>
		<OutputVars>
			<VarDeclaration Name="Speed" Type="REAL"/>
		</OutputVars>
	</InterfaceList>
	<Service RightInterface="PLUG" LeftInterface="SOCKET">
		<ServiceSequence Name="run_and_stop">
			<ServiceTransaction>
				<InputPrimitive Interface="SOCKET" Event="RUN" Parameters="Speed"/>
				<OutputPrimitive Interface="PLUG" Event="RUN" Parameters="Speed"/>
			</ServiceTransaction>
		</ServiceSequence>
		<ServiceSequence Name="trip">
			<ServiceTransaction>
				<InputPrimitive Interface="PLUG" Event="TRIPPED" Parameters="Tripped"/>
				<OutputPrimitive Interface="SOCKET" Event="TRIPPED" Parameters="Tripped"/>
			</ServiceTransaction>
		</ServiceSequence>
	</Service>
</AdapterType>
